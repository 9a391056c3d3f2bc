#!/usr/bin/env python3
"""Measures reading: the program on designs whose names fill 8 to 64 MiB, on designs of many padstacks, on a board of
parts and wires and on designs at the limits, the numbers of designs of many nets and wires, and the tree of texts of 4 to 64 MiB against `wc -w` on the same file. Give it
no words; build with `rt run` first.

It prints a row a size: processor seconds, the most memory in MB, and what it is compared with.
A child's memory is counted from its start as a copy of this process, so no text is held whole here.
"""
import os
import subprocess
import sys
import tempfile

TOP = os.path.dirname(os.path.dirname(os.path.abspath(__file__)))
SERVER = os.path.join(TOP, "crates/layout_server/out/layout_server")
NUMBERS = os.path.join(TOP, "crates/board_numbers/out/board_numbers")
COUNT = os.path.join(TOP, "crates/tree_count/out/tree_count")
MIB = 1 << 20


def timed(words, env=None):
    """Processor seconds, the child's largest resident size in MB, its status and its output."""
    child = subprocess.Popen(words, stdout=subprocess.PIPE, stderr=subprocess.DEVNULL, env=env)
    output = child.stdout.read()
    _, status, usage = os.wait4(child.pid, 0)
    return usage.ru_utime + usage.ru_stime, usage.ru_maxrss / 1024, os.waitstatus_to_exitcode(status), output


def replayed(program, design, lines):
    """Processor seconds and MB of one run of these lines on a design, in which each line has to be accepted."""
    script, session = design + ".script", design + ".ses"
    with open(script, "w", encoding="ascii") as file:
        file.writelines(line + "\n" for line in lines)
    seconds, most, status, output = timed([program, "replay", design, script, session])
    accepted = output.split(b"journal ")[0].count(b" ok ")
    assert status == 0 and accepted == len(lines), f"status {status}, {accepted} of {len(lines)} accepted"
    return seconds, most


def write_times(file, piece, times):
    """Writes a piece so many times, in blocks."""
    block = max(1, (1 << 16) // len(piece))
    for _ in range(times // block):
        file.write(piece * block)
    file.write(piece * (times % block))


def write_design(path, size):
    """A design of 1,000 nets whose names fill a text of nearly this size."""
    front = b"(pcb s.dsn (unit um) (structure (layer L1 (type signal)) (rule (width 100) (clearance 200))) (network"
    each = (size - len(front) - 2) // 1000 - len(b" (net )")
    with open(path, "wb") as file:
        file.write(front)
        for i in range(1000):
            file.write(b" (net %s)" % (b"%06d" % i).rjust(each, b"n"))
        file.write(b"))")


def write_library(path, stacks, circles):
    """A design of so many padstacks with so many circles each."""
    with open(path, "wb") as file:
        file.write(b"(pcb s.dsn (unit um) (structure (layer L1 (type signal)) (rule (width 100) (clearance 200))) (library")
        for i in range(stacks):
            file.write(b" (padstack P%d%s)" % (i, b" (shape (circle L1 600))" * circles))
        file.write(b") (network (net A)))")


def write_text(path, size, piece):
    """One list that is filled with a piece."""
    with open(path, "wb") as file:
        file.write(b"(")
        write_times(file, piece, (size - 2) // len(piece))
        file.write(b")")


WITHOUT_NET = b" (wire (path L1 200 0 0 1 1))"


def write_wiring(path, nets, end):
    """A design of so many nets with two wires each, of which the last one is this. Where that is a wire without a net, all
    is read and no pair is tested."""
    with open(path, "wb") as file:
        file.write(b"(pcb s.dsn (unit um) (structure (layer L1 (type signal)) (rule (width 100) (clearance 200))) (network")
        for i in range(nets):
            file.write(b" (net N%d)" % i)
        file.write(b") (wiring")
        for i in range(2 * nets - 1):
            file.write(b" (wire (path L1 200 %d %d %d %d) (net N%d))" % (i % 1000, i // 1000, i % 1000 + 1, i // 1000, i * 7 % nets))
        file.write(end + b"))")


def wirings(folder):
    print("nets, wires: MiB, seconds, MB, wc -w seconds, ratio, status")
    for nets in (25000, 50000, 100000):
        path = os.path.join(folder, "w.dsn")
        write_wiring(path, nets, WITHOUT_NET)
        seconds, most, status, output = timed([SERVER, "check", path])
        words, _, _, _ = timed(["wc", "-w", path], dict(os.environ, LC_ALL="C"))
        size = os.path.getsize(path) / MIB
        print(f"{nets} {2 * nets} {size:.1f} {seconds:.2f} {most:.0f} {words:.3f} {seconds / words:.1f} {status} {output.decode().strip()}")


def numbers(folder):
    print("nets, wires: MiB, seconds for the numbers, MB, lines, status")
    for nets in (25000, 50000, 100000):
        path = os.path.join(folder, "n.dsn")
        write_wiring(path, nets, b" (wire (path L1 200 0 0 1 1) (net N0))")
        seconds, most, status, output = timed([NUMBERS, "numbers", path])
        print(f"{nets} {2 * nets} {os.path.getsize(path) / MIB:.1f} {seconds:.2f} {most:.0f} {output.count(bytes([10]))} {status}")


def write_board(path, parts, wires, end):
    """A board of so many parts of two pads each, on both sides, and so many wires, all far enough from each other. The
    end is put behind the wires."""
    with open(path, "wb") as file:
        file.write(b"(pcb s.dsn (unit um) (structure (layer L1 (type signal)) (layer L2 (type signal)) (boundary (rect pcb -1000 -1000 900000 900000)) (rule (width 100) (clearance 200)))")
        file.write(b" (library (image I (pin V 1 -1000 0) (pin V (rotate 45) 2 1000 0)) (padstack V (shape (rect L1 -400 -300 400 300)))) (placement (component I")
        for i in range(parts):
            file.write(b" (place U%d %d %d %s %d)" % (i, i % 100 * 5000, i // 100 * 5000, (b"front", b"back")[i % 2], i % 8 * 45))
        file.write(b")) (network")
        for i in range(parts):
            file.write(b" (net N%d (pins U%d-1 U%d-2))" % (i, i, (i + 1) % parts))
        file.write(b") (wiring")
        for i in range(wires):
            x, y = i % 100 * 5000, 100000 + i // 100 * 5000
            file.write(b" (wire (path L%d 200 %d %d %d %d) (net N%d))" % (i % 2 + 1, x, y, x + 3000, y + 3000, i % parts))
        file.write(end + b"))")


def boards(folder):
    print("parts of two pads, wires: MiB, seconds for all, and for reading alone, MB, what is told of each")
    parts, wires = 1000, 8000
    path = os.path.join(folder, "b.dsn")
    write_board(path, parts, wires, b"")
    whole, most, _, told = timed([SERVER, "check", path])
    write_board(path, parts, wires, b" (wire (path L1 200 0 0 1 1))")
    alone, _, _, other = timed([SERVER, "check", path])
    print(f"{parts} {wires} {os.path.getsize(path) / MIB:.1f} {whole:.2f} {alone:.2f} {most:.0f} {told.decode().strip()}, {other.decode().strip()}")


TWO_LAYERS = b"(pcb s.dsn (unit um) (structure (layer L1 (type signal)) (layer L2 (type signal)) (rule (width 100) (clearance 100)))"
# Two wires of two nets at one place, where each design below has its first item.
END = b" (wire (path L1 1 0 0 1 1) (net Y)) (wire (path L1 1 0 0 1 1) (net Z))))"


def write_many_wires(path, wires):
    """So many wires of 20 points."""
    with open(path, "wb") as file:
        file.write(TWO_LAYERS + b" (wiring")
        for i in range(wires):
            points = b"".join(b" %d %d" % (x * 100 + i % 7, i % 100000) for x in range(20))
            file.write(b" (wire (path L1 200" + points + b") (net N%d))" % (i % 1000))
        file.write(END)


def write_many_pads(path, parts):
    """So many parts of 99 pads of 20 points, each pin in the net of its part."""
    ring = b"".join(b" %d %d" % (x * 10, x * x % 97) for x in range(20))
    with open(path, "wb") as file:
        file.write(TWO_LAYERS + b" (library (padstack V (shape (polygon L1 0" + ring + b"))) (image I")
        for k in range(99):
            file.write(b" (pin V %d %d 0)" % (k, k * 300))
        file.write(b")) (placement (component I")
        for i in range(parts):
            file.write(b" (place U%d %d %d %s %d)" % (i, i % 100, i // 100 * 500, (b"front", b"back")[i % 2], i % 8 * 45))
        file.write(b")) (network")
        for i in range(parts):
            file.write(b" (net N%d (pins%s))" % (i, b"".join(b" U%d-%d" % (i, k) for k in range(99))))
        file.write(b") (wiring" + END)


def write_circles(path, mib, layer):
    """Padstacks of 100 circles on one or every layer of 32 that fill so many MiB nearly; gives how many circles they are."""
    stacks = 0
    with open(path, "wb") as file:
        file.write(b"(pcb s.dsn (unit um) (structure")
        for i in range(32):
            file.write(b"(layer L%d(type signal))" % i)
        file.write(b"(rule(width 100)(clearance 100)))(library")
        while file.tell() < mib * MIB - 2000:
            file.write(b"(padstack P%d(shape" % stacks + b"(circle %s 1)" % layer * 100 + b"))")
            stacks += 1
        file.write(b"))")
    return stacks * 100


def limits(folder):
    path = os.path.join(folder, "m.dsn")

    def row(name):
        seconds, most, _, output = timed([SERVER, "check", path])
        print(f"  {name:24s} {os.path.getsize(path) / MIB:6.1f} {seconds:8.2f} {most:8.0f} {output.decode().strip()}")

    print("designs at the limits: MiB, seconds, MB, what is told")
    for quarters in (1, 2, 4):
        write_many_wires(path, 49999 * quarters)
        row(f"{49999 * quarters} wires")
    for quarters in (1, 2, 4):
        write_many_pads(path, 500 * quarters)
        row(f"{49500 * quarters} pads")
    for layer, mib in ((b"pcb", 1), (b"pcb", 2), (b"pcb", 4), (b"L1", 32)):
        row(f"{write_circles(path, mib, layer)} circles on {layer.decode()}")


def designs(folder):
    print("design of 1,000 nets: MiB, seconds, MB, status")
    for mib in (8, 16, 32, 64):
        path = os.path.join(folder, "d.dsn")
        write_design(path, mib * MIB)
        open(os.path.join(folder, "d.script"), "w").close()
        seconds, most, status, _ = timed([SERVER, "replay", path, os.path.join(folder, "d.script"), os.path.join(folder, "d.ses")])
        print(f"  {mib:3d} {seconds:8.2f} {most:8.0f} {status}")


def libraries(folder):
    print("design of padstacks: how many, circles of each, MiB, seconds, MB, status")
    for stacks, circles in ((6500, 2), (65000, 2), (65000, 20)):
        path = os.path.join(folder, "l.dsn")
        write_library(path, stacks, circles)
        open(os.path.join(folder, "l.script"), "w").close()
        seconds, most, status, _ = timed([SERVER, "replay", path, os.path.join(folder, "l.script"), os.path.join(folder, "l.ses")])
        print(f"  {stacks:6d} {circles:3d} {os.path.getsize(path) / MIB:6.1f} {seconds:8.2f} {most:8.0f} {status}")


def trees(folder):
    print("tree of a text: piece, MiB, seconds, MB, wc -w seconds, ratio, lists and words")
    path = os.path.join(folder, "t.txt")
    usual = [(piece, mib) for piece in (b"wire 12 ", b"(a b)(c)") for mib in (4, 16, 64)]
    largest = [(piece, 64) for piece in (b"a ", b"()", b"(a)")]
    for piece, mib in usual + largest:
        write_text(path, mib * MIB, piece)
        seconds, most, _, output = timed([COUNT, path])
        words, _, _, _ = timed(["wc", "-w", path], env={"LC_ALL": "C", "PATH": os.environ["PATH"]})
        print(f"  {piece.decode():9s} {mib:3d} {seconds:8.2f} {most:8.0f} {words:8.3f} {seconds / max(words, 0.001):8.1f}  {output.decode().strip()}")


def main():
    for program in (SERVER, NUMBERS, COUNT):
        if not os.path.exists(program):
            print(f"{os.path.relpath(program, TOP)} isn't built: run `rt run` in its crate")
            return 1
    with tempfile.TemporaryDirectory() as folder:
        designs(folder)
        libraries(folder)
        wirings(folder)
        numbers(folder)
        boards(folder)
        limits(folder)
        trees(folder)
    return 0


if __name__ == "__main__":
    sys.exit(main())

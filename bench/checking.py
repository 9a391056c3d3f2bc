#!/usr/bin/env python3
"""Measures `check`: a board of parts and wires, made boards of 50,000 to 200,000 loaded wires, and boards that hurt an index
of boxes: vias in a narrow grid, all items in one corner, frames as large as the board, wires from corner to corner.
Give it no words, or the path of the program; without one build with `rt run` in crates/layout_server first.

Each board is clean. Of each it prints MiB, how many items it has, and the median of processor seconds of the whole check, of
reading alone, and of both together the difference, with the most memory in MB. What is read alone is the same design with a
wire that belongs to no net at its end, which is a fault, so that no pair is tested.
"""
import os
import statistics
import sys
import tempfile

from reading import MIB, SERVER, timed, write_board

RUNS = 5
FRONT = b"(pcb c.dsn (unit um) (structure (layer L1 (type signal)) (layer L2 (type signal)) (rule (width %d) (clearance %d)))"
WITHOUT_NET = b" (wire (path L1 200 0 0 1 1))"


def nets_of(file, count):
    file.write(b" (network")
    for i in range(count):
        file.write(b" (net N%d)" % i)
    file.write(b")")


def path(layer, width, points, net):
    flat = b" ".join(b"%d %d" % point for point in points)
    return b" (wire (path L%d %d %s) (net N%d))" % (layer, width, flat, net)


def zigzags(count):
    """Nets of twenty wires of 2.2 mm, one after another, with neighbours 0.25 mm away on both sides and on two layers."""
    for net in range(count // 20):
        layer, place = net % 2 + 1, net // 2
        left, low = place % 10 * 41000, place // 10 * 500
        for k in range(20):
            ends = [(left + j * 2000, low + j % 2 * 1000) for j in (k, k + 1)]
            yield path(layer, 200, ends, net)


def corner(count):
    """Wires of 10 um at a pitch of 30 um, and one wire 900 mm away."""
    for i in range(count - 1):
        x, y = i % 448 * 30, i // 448 * 30
        yield path(1, 2, [(x, y), (x + 10, y)], i % 1000)
    yield path(1, 2, [(900000, 900000), (900010, 900000)], 0)


def framed(count, frames):
    """So many frames round the wires of `zigzags`, one round another; the box of each has all wires in it."""
    for i in range(frames):
        out = 1000 + i * 1000
        left, low, right, high = -out, -out, 420000 + out, 260000 + out
        yield path(1, 200, [(left, low), (right, low), (right, high), (left, high), (left, low)], 20000 + i)
    yield from zigzags(count - frames)


def diagonals(count, points):
    """Parallel wires from corner to corner, 0.018 mm from each other, each by so many points."""
    for i in range(count):
        steps = [(k * 400000 // (points - 1) + i * 25, k * 400000 // (points - 1)) for k in range(points)]
        yield path(1, 2, steps, i % 20000)


def crossed(count, across):
    """Wires of 1 mm above so many wires from corner to corner, whose boxes have all of them."""
    for i in range(across):
        yield path(1, 200, [(i * 1000, 0), (i * 1000 + 400000, 400000)], 20000 + i)
    placed, x, y = 0, 0, 2000
    while placed < count - across:
        if x + 2000 > y:
            x, y = 0, y + 500
        yield path(1, 200, [(x, y), (x + 1000, y)], placed % 20000)
        placed, x = placed + 1, x + 1500


def write_wires(file, wires, rule, nets, end):
    file.write(FRONT % rule)
    nets_of(file, nets)
    file.write(b" (wiring")
    file.writelines(wires)
    file.write(end + b"))")


def write_vias(file, count, end):
    """Vias of 0.6 mm on two layers at a pitch of 1 mm."""
    file.write(FRONT % (100, 200) + b" (library (padstack V (shape (circle L1 600)) (shape (circle L2 600))))")
    nets_of(file, 1000)
    file.write(b" (wiring")
    for i in range(count):
        file.write(b" (via V %d %d (net N%d))" % (i % 500 * 1000, i // 500 * 1000, i % 1000))
    file.write(end + b"))")


def wires_of(wires, rule=(100, 200), nets=21000):
    return lambda file, end: write_wires(file, wires(), rule, nets, end)


BOARDS = (
    ("50,000 wires", 50000, wires_of(lambda: zigzags(50000))),
    ("100,000 wires", 100000, wires_of(lambda: zigzags(100000))),
    ("200,000 wires", 200000, wires_of(lambda: zigzags(200000))),
    ("200,000 vias at 1 mm", 200000, lambda file, end: write_vias(file, 200000, end)),
    ("50,000 wires in a corner", 50000, wires_of(lambda: corner(50000), (1, 10))),
    ("200,000 wires in a corner", 200000, wires_of(lambda: corner(200000), (1, 10))),
    ("100 frames as large as the board, 200,000 in all", 200000, wires_of(lambda: framed(200000, 100))),
    ("100 diagonals over 100,000 wires", 100000, wires_of(lambda: crossed(100000, 100))),
    ("2,000 diagonals of 2 points", 2000, wires_of(lambda: diagonals(2000, 2), (1, 10))),
    ("2,000 diagonals of 20 points", 2000, wires_of(lambda: diagonals(2000, 20), (1, 10))),
    ("10,000 diagonals of 2 points", 10000, wires_of(lambda: diagonals(10000, 2), (1, 10))),
)


def of_parts(parts, wires):
    """A writer of the board of parts and wires that `reading.py` makes."""
    def write(file, end):
        write_board(file.name, parts, wires, end)
    return write


def row(program, folder, name, items, write):
    whole, alone = os.path.join(folder, "w.dsn"), os.path.join(folder, "r.dsn")
    for design, end in ((whole, b""), (alone, WITHOUT_NET)):
        with open(design, "wb") as file:
            write(file, end)
    times, most = {whole: [], alone: []}, 0
    for _ in range(RUNS):
        for design, found in times.items():
            seconds, memory, status, output = timed([program, "check", design])
            assert status == (0 if design == whole else 2), f"{name}: status {status}, {output}"
            assert design == alone or output == b"clean %d\n" % items, f"{name}: {output}"
            found.append(seconds)
            most = max(most, memory)
    checked, read = (statistics.median(found) for found in times.values())
    print(f"  {name:49s} {os.path.getsize(whole) / MIB:6.1f} {items:7d} {checked:8.3f} {read:8.3f} {checked - read:8.3f} {most:6.0f}", flush=True)


def main():
    program = sys.argv[1] if len(sys.argv) > 1 else SERVER
    if not os.path.exists(program):
        print(f"{program} isn't there: run `rt run` in crates/layout_server")
        return 1
    print(f"{os.cpu_count()} processors, load {os.getloadavg()[0]:.1f}; processor seconds, median of {RUNS}:")
    print(f"  {'board':49s} {'MiB':>6s} {'items':>7s} {'check':>8s} {'reading':>8s} {'the rest':>8s} {'MB':>6s}")
    with tempfile.TemporaryDirectory() as folder:
        row(program, folder, "1,000 parts, 8,000 wires", 10000, of_parts(1000, 8000))
        for name, items, write in BOARDS:
            row(program, folder, name, items, write)
    return 0


if __name__ == "__main__":
    sys.exit(main())

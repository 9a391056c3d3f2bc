#!/usr/bin/env python3
"""Measures edits: how many edits of one wire a second are answered beside 1,000 and 10,000 live items.
Give it no words, or the path of the program; without one build with `rt run` first.

The live items come in edits of up to 64 wires. The time of the
edits that are measured is the difference of two runs, with them and without. Each run is made five
times by turns, and the median counts. The live items are of one net and what is measured adds to the
other, so that each wire is held against every live item. Where `apply_bench` is built, the time of
`apply` alone is measured by it too, by edits of half of the live items.
"""
import os
import statistics
import sys
import tempfile

from reading import SERVER, TOP, replayed, timed

APPLY = os.path.join(TOP, "crates/apply_bench/out/apply_bench")

DESIGN = b"(pcb s.dsn (unit um) (structure (layer L1 (type signal)) (rule (width 100) (clearance 200))) (network (net A) (net B)))"
ADDS = 64
EDITS = 300
RUNS = 5


def wire(net, place, up):
    """A wire of 900,000 nm in a grid of which a row has 100."""
    x, y = place % 100 * 2000000, place // 100 * 1000000 + up
    return f"wire {net} 0 100000 2 {x} {y} {x + 900000} {y}"


def filled(count):
    """Lines that make so many live items of net 0."""
    lines = []
    for first in range(0, count, ADDS):
        places = range(first, min(first + ADDS, count))
        lines.append(f"do 1 edit 0 {len(places)} " + " ".join(wire(0, place, 0) for place in places))
    return lines


def added(count):
    """Lines that each add a wire of net 1, 500,000 nm from the next live item."""
    return [f"do 2 edit 0 1 {wire(1, place, 500000)}" for place in range(EDITS)]


def replaced(count):
    """Lines that each delete a live item and add a wire of net 1, so that the count stays."""
    return [f"do 2 edit 1 {place * (count // EDITS) + 1} 1 {wire(1, place, 500000)}" for place in range(EDITS)]


def deleted(count):
    """Lines that each delete a live item and add nothing, so that no pair is tested."""
    return [f"do 2 edit 1 {place * (count // EDITS) + 1} 0" for place in range(EDITS)]


def moved(count):
    """Lines that each delete a live item and add a wire of net 1 far from everything."""
    return [f"do 2 edit 1 {place * (count // EDITS) + 1} 1 {wire(1, place, -500000000)}" for place in range(EDITS)]


def run(program, folder, lines):
    """Processor seconds of one run, in which each line has to be accepted."""
    return replayed(program, os.path.join(folder, "e.dsn"), lines)[0]


KINDS = (
    ("adds one wire", added),
    ("deletes one and adds one", replaced),
    ("deletes one", deleted),
    ("deletes one and adds one far away", moved),
)


def applied(live, kind, edits):
    """Processor seconds and the most memory in MB of a board of so many items and so many edits of it."""
    seconds, memory, status, output = timed([APPLY, str(live), kind, str(edits)])
    assert status == 0 and f" entries {-(-live // ADDS) + edits}\n".encode() in output, output
    return seconds, memory


def apply_alone():
    """What an entry costs beside so many live items, without answers."""
    print("  live items, what each of half as many edits does: microseconds an edit, MB of the process")
    for live in (1000, 10000, 100000):
        for kind in ("delete", "replace"):
            edits = live // 2
            pairs = [(applied(live, kind, 0), applied(live, kind, edits)) for _ in range(RUNS)]
            taken = statistics.median(b[0] for _, b in pairs) - statistics.median(a[0] for a, _ in pairs)
            print(f"  {live:6d} {kind:8s} {taken / edits * 1e6:8.2f} {pairs[0][1][1]:8.1f}")


def main():
    program = sys.argv[1] if len(sys.argv) > 1 else SERVER
    if not os.path.exists(program):
        print(f"{program} isn't there: run `rt run` in crates/layout_server")
        return 1
    load = os.getloadavg()[0]
    print(f"{os.cpu_count()} processors, load {load:.1f}; live items, what each of {EDITS} edits does:")
    print("  seconds without them, with them (median, least to most), edits a second")
    with tempfile.TemporaryDirectory() as folder:
        with open(os.path.join(folder, "e.dsn"), "wb") as file:
            file.write(DESIGN)
        for count in (1000, 10000):
            for name, edits in KINDS:
                front = filled(count)
                whole = front + edits(count)
                pairs = [(run(program, folder, front), run(program, folder, whole)) for _ in range(RUNS)]
                before, after = sorted(a for a, _ in pairs), sorted(b for _, b in pairs)
                taken = statistics.median(after) - statistics.median(before)
                print(f"  {count:6d} {name:33s} {statistics.median(before):7.3f} ({before[0]:.3f} to {before[-1]:.3f})"
                      f" {statistics.median(after):7.3f} ({after[0]:.3f} to {after[-1]:.3f}) {EDITS / max(taken, 0.001):9.0f}")
    if os.path.exists(APPLY):
        apply_alone()
    return 0


if __name__ == "__main__":
    sys.exit(main())

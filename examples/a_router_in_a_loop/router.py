#!/usr/bin/env python3
"""Routes the nets of two pads of a board, one track each, by asking the server.

router.py BOARD SESSION [NUMBERS SERVER]

It asks for the board's numbers, writes a script with an edit for each net, lets `replay` answer it, and reads the
answers: an edit that was accepted stays, and a net whose edit was refused gets another track in the next round. The last
round's session stays under SESSION. NUMBERS and SERVER are the two programs; without them it runs them by `./run`.
It ends with 0 where every net has its track, else with 1.
"""
import os
import subprocess
import sys
import tempfile

TOP = os.path.dirname(os.path.dirname(os.path.dirname(os.path.abspath(__file__))))
CLIENT = 1
# How far a track goes round what is in its way, in nm.
DETOURS = (3000000, -3000000, 6000000, -6000000, 9000000, -9000000)


def asked(words):
    """What a program prints; ends this one where it stops."""
    run = subprocess.run(words, stdout=subprocess.PIPE, check=False)
    if run.returncode != 0:
        sys.exit(f"router: {' '.join(words[-2:])}: {run.stdout.decode().strip()}")
    return run.stdout.decode().splitlines()


def board_of(lines):
    """The width of the nets, their names, and the places of their pads, by the numbers of the nets."""
    width, names, pads = 1, {}, {}
    for line in lines:
        front, _, rest = line.partition(" ")
        words = rest.split(" ")
        if front == "class" and words[0] == "0" and words[-1] != "none":
            width = max(1, int(words[-1]))
        elif front == "net":
            names[int(words[0])] = rest.partition(" ")[2].rpartition(" class ")[0]
        elif front == "item" and words[1] == "pad":
            # Behind the name, which may have spaces: net <n|none> pin|smd at <x> <y>
            net, x, y = words[-5], int(words[-2]), int(words[-1])
            if net != "none":
                pads.setdefault(int(net), []).append((x, y))
    return width, names, {net: places for net, places in pads.items() if len(places) == 2}


def tracks(a, b):
    """The ways from a to b, the nearest first: straight, and then round what is between them."""
    yield [a, b]
    for by in DETOURS:
        if abs(a[0] - b[0]) >= abs(a[1] - b[1]):
            yield [a, (a[0], a[1] + by), (b[0], b[1] + by), b]
        else:
            yield [a, (a[0] + by, a[1]), (b[0] + by, b[1]), b]


def edit(net, width, points):
    """The script line that adds a wire on layer 0."""
    places = " ".join(f"{x} {y}" for x, y in points)
    return f"do {CLIENT} edit 0 1 wire {net} 0 {width} {len(points)} {places}"


def main():
    board, session = sys.argv[1:3]
    numbers, server = sys.argv[3:] or [None, None]
    run = os.path.join(TOP, "run")
    width, names, pads = board_of(asked([numbers or run, "numbers", board]))
    ways = {net: tracks(*places) for net, places in pads.items()}
    wanted = {net: next(way) for net, way in ways.items()}
    kept, turn = [], 0
    with tempfile.TemporaryDirectory() as folder:
        script = os.path.join(folder, "moves.script")
        while wanted:
            turn += 1
            nets = sorted(wanted)
            lines = kept + [edit(net, width, wanted[net]) for net in nets]
            with open(script, "w", encoding="ascii") as file:
                file.write("".join(line + "\n" for line in lines))
            answers = asked([server or run, "replay", board, script, session])[len(kept) : len(lines)]
            told = []
            for net, line, answer in zip(nets, lines[len(kept) :], answers):
                reply = answer.partition(" ")[2]
                told.append(f"{names[net]}: {reply}")
                if reply.startswith("ok"):
                    kept.append(line)
                    del wanted[net]
                else:
                    wanted[net] = next(ways[net], None)
            print(f"round {turn}: {', '.join(told)}")
            wanted = {net: points for net, points in wanted.items() if points}
    print(f"{len(kept)} of {len(pads)} nets have their track")
    return 0 if len(kept) == len(pads) else 1


if __name__ == "__main__":
    sys.exit(main())

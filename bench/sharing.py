#!/usr/bin/env python3
"""Measures scripts of eight clients on a board that stays as large as it is: 500 held items, 500 others and 20
boundaries. Give it no words, or the path of the program; without one build it with `rt run` first.

Nine of ten requests are edits that each replace one of the others, in a boundary of the client's own or outside of all;
one of ten is about a reservation or a boundary: a release and the reserve of the same item, an `unfence` and the same
`fence` again, an `entitle`. Each request is accepted. The board is filled by the first lines of each script.
"""
import os
import sys
import tempfile

from reading import SERVER, replayed

DESIGN = (
    b"(pcb s.dsn (unit um) (structure (layer L1 (type signal)) (rule (width 100) (clearance 200)))"
    b" (network (net A) (net B) (net C) (net D) (net E) (net F) (net G) (net H)))"
)
CLIENTS = 8
HELD = 500
OTHERS = 500
BOUNDARIES = 20
COUNTS = (25000, 50000, 100000)


def wire(client, place):
    """A wire of the client's own net in its own column, a row each."""
    x, y = client * 10000000, place * 1000000
    return f"wire {client - 1} 0 100000 2 {x} {y} {x + 900000} {y}"


class Board:
    """What the script has made so far: item numbers by place, and boundary numbers with their lines."""

    def __init__(self):
        self.lines = []
        self.next_id = 1
        self.next_fence = 1
        self.held = []
        self.others = []
        self.fences = []

    def add(self, client, place):
        self.lines.append(f"do {client} edit 0 1 {wire(client, place)}")
        self.next_id += 1
        return self.next_id - 1

    def replace(self, at):
        client, place, old = self.others[at]
        self.lines.append(f"do {client} edit 1 {old} 1 {wire(client, place)}")
        self.others[at] = (client, place, self.next_id)
        self.next_id += 1

    def fence(self, client, place):
        """A boundary round the ten rows from a place on, in the client's column."""
        x, low, high = client * 10000000 - 500000, place * 1000000 - 500000, place * 1000000 + 9500000
        area = f"4 {x} {low} {x + 1900000} {low} {x + 1900000} {high} {x} {high}"
        self.lines.append(f"do {client} fence 1 0 {area} 0")
        self.next_fence += 1
        return self.next_fence - 1


def filled():
    board = Board()
    for n in range(HELD + OTHERS):
        client, place = n % CLIENTS + 1, n // CLIENTS
        item = board.add(client, place)
        if n < HELD:
            board.lines.append(f"do {client} reserve {item}")
            board.held.append((client, item))
        else:
            board.others.append((client, place, item))
    for n in range(BOUNDARIES):
        client, place = n % CLIENTS + 1, 10 * (n // CLIENTS) + 63
        board.fences.append((client, place, board.fence(client, place)))
    return board


def script(count):
    """The lines that fill the board, and so many requests."""
    board = filled()
    start = len(board.lines)
    turn = 0
    while len(board.lines) - start < count:
        turn += 1
        if turn % 10:
            board.replace(turn % OTHERS)
        elif turn % 30 == 10:
            client, item = board.held[turn % HELD]
            board.lines += [f"do {client} release {item}", f"do {client} reserve {item}"]
        elif turn % 30 == 20:
            client, place, old = board.fences[turn // 30 % BOUNDARIES]
            board.lines.append(f"do {client} unfence {old}")
            board.fences[turn // 30 % BOUNDARIES] = (client, place, board.fence(client, place))
        else:
            client, _, number = board.fences[turn // 30 % BOUNDARIES]
            board.lines.append(f"do {client} entitle {number} {client % CLIENTS + 1}")
    return board.lines[: start + count], start


def main():
    program = sys.argv[1] if len(sys.argv) > 1 else SERVER
    if not os.path.exists(program):
        print(f"{program} isn't there: build it first")
        return 1
    load = os.getloadavg()[0]
    print(f"{os.cpu_count()} processors, load {load:.1f}; requests, seconds of them, a second, MB")
    with tempfile.TemporaryDirectory() as folder:
        design = os.path.join(folder, "board.dsn")
        with open(design, "wb") as file:
            file.write(DESIGN)
        before, _ = replayed(program, design, filled().lines)
        for count in COUNTS:
            lines, _ = script(count)
            seconds, memory = replayed(program, design, lines)
            print(f"{count:8} {seconds - before:8.2f} {count / (seconds - before):9.0f} {memory:8.1f}")
    return 0


if __name__ == "__main__":
    sys.exit(main())

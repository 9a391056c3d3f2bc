#!/usr/bin/env python3
"""Measures `serve` on the loopback: one client that sends 100,000 small edits in one go and reads what comes, and one that
waits for each answer. Each edit deletes the item of the one before it and adds one via, so the board stays small and the
lines are what is measured. Beside it, in the same run, a server that echoes bytes: in one go, and a line at a time.
Give it no words, or the path of the program; without one build with `rt run` in crates/layout_server first.

Of each it prints seconds by the clock, lines a second, the processor seconds of the server, and its most memory in MB.
"""
import os
import socket
import subprocess
import sys
import tempfile
import threading
import time

from reading import SERVER

COUNT = 100000
DESIGN = (
    b"(pcb b.dsn (unit um) (structure (layer L1 (type signal)) (layer L2 (type signal)) (via V) (rule (width 100) (clearance 200)))"
    b" (library (padstack V (shape (circle L1 600)) (shape (circle L2 600)))) (network (net A) (net B) (net C)))"
)


def lines(count):
    """The first edit adds a via, each other deletes the one before it and adds the next."""
    yield b"edit 0 1 via 0 0 0 0\n"
    for k in range(1, count):
        yield b"edit 1 %d 1 via 0 0 %d 0\n" % (k, k % 1000)


def connected(port):
    while True:
        try:
            link = socket.create_connection(("127.0.0.1", port))
            link.setsockopt(socket.IPPROTO_TCP, socket.TCP_NODELAY, 1)
            return link
        except ConnectionRefusedError:
            time.sleep(0.01)


def in_one_go(link, texts, answers):
    """Sends all and reads so many lines; nothing waits for anything else."""
    sender = threading.Thread(target=link.sendall, args=(b"".join(texts),))
    sender.start()
    seen = 0
    while seen < answers:
        piece = link.recv(1 << 20)
        assert piece, "the connection ended early"
        seen += piece.count(b"\n")
    sender.join()


def one_by_one(link, texts, answers):
    """Sends a line, and reads so many lines before the next."""
    each = answers // len(texts)
    for text in texts:
        link.sendall(text)
        seen = 0
        while seen < each:
            piece = link.recv(65536)
            assert piece, "the connection ended early"
            seen += piece.count(b"\n")


def free_port():
    with socket.socket() as probe:
        probe.bind(("127.0.0.1", 0))
        return probe.getsockname()[1]


def served(program, folder, way, count):
    design, session, port = os.path.join(folder, "b.dsn"), os.path.join(folder, "b.ses"), free_port()
    with open(design, "wb") as file:
        file.write(DESIGN)
    server = subprocess.Popen([program, "serve", f"127.0.0.1:{port}", "1", design, session])
    with connected(port) as link:
        reader = link.recv(64)
        assert reader == b"hello 1 1\n", reader
        start = time.monotonic()
        way(link, list(lines(count)), 2 * count)
        seconds = time.monotonic() - start
        link.sendall(b"bye\n")
        assert link.recv(64) == b""
    _, status, used = os.wait4(server.pid, 0)
    assert status == 0, status
    return seconds, used.ru_utime + used.ru_stime, used.ru_maxrss / 1024


ECHO = """
import socket, sys
with socket.create_server(("127.0.0.1", int(sys.argv[1]))) as door:
    link, _ = door.accept()
    link.setsockopt(socket.IPPROTO_TCP, socket.TCP_NODELAY, 1)
    while piece := link.recv(65536):
        link.sendall(piece)
"""


def echoed(way, count):
    port = free_port()
    server = subprocess.Popen([sys.executable, "-c", ECHO, str(port)])
    with connected(port) as link:
        start = time.monotonic()
        way(link, list(lines(count)), count)
        seconds = time.monotonic() - start
    _, _, used = os.wait4(server.pid, 0)
    return seconds, used.ru_utime + used.ru_stime, used.ru_maxrss / 1024


def main():
    program = sys.argv[1] if len(sys.argv) > 1 else SERVER
    if not os.path.exists(program):
        print(f"{program} isn't there: run `rt run` in crates/layout_server")
        return 1
    print(f"{os.cpu_count()} processors, load {os.getloadavg()[0]:.1f}; {COUNT} edits")
    print(f"  {'way':28s} {'seconds':>8s} {'a second':>9s} {'processor':>10s} {'MB':>6s}")
    with tempfile.TemporaryDirectory() as folder:
        for name, way in (("in one go", in_one_go), ("one by one", one_by_one)):
            for who, (seconds, used, memory) in (
                ("serve", served(program, folder, way, COUNT)),
                ("echo", echoed(way, COUNT)),
            ):
                print(f"  {who + ', ' + name:28s} {seconds:8.2f} {COUNT / seconds:9.0f} {used:10.2f} {memory:6.0f}", flush=True)
    return 0


if __name__ == "__main__":
    sys.exit(main())

#!/usr/bin/env python3
"""Measures turns: how long a take and put back of `turn_lock` lasts, beside a lock and unlock of std's `Mutex`, without a
rival and where eight threads do nothing else, and what waiting costs where each turn is held for 10 ms.
Give it no words; build with `rt run` in crates/lock_bench first. It needs `rustc`.

Both programs are run five times by turns, and the median counts. A nanosecond a turn is the time on the clock (or the
processor time) divided by the turns of all threads.
"""
import os
import statistics
import subprocess
import sys
import tempfile
import time

TOP = os.path.dirname(os.path.dirname(os.path.abspath(__file__)))
LOCK = os.path.join(TOP, "crates/lock_bench/out/lock_bench")
MUTEX = os.path.join(TOP, "bench/mutex_turns.rs")
RUNS = 5
# Threads, turns of each, microseconds within a turn.
ROWS = [(1, 20_000_000, 0), (2, 5_000_000, 0), (8, 1_000_000, 0), (8, 20, 10_000)]


def run(program, row):
    """Seconds on the clock and processor seconds of one run, which has to count each turn."""
    threads, turns, _ = row
    begin = time.monotonic()
    child = subprocess.Popen([program] + [str(word) for word in row], stdout=subprocess.PIPE)
    output = child.stdout.read()
    _, status, usage = os.wait4(child.pid, 0)
    seconds = time.monotonic() - begin
    assert status == 0 and int(output) == threads * turns, f"{program} {row}: status {status}, {output}"
    return seconds, usage.ru_utime + usage.ru_stime


def main():
    if len(sys.argv) > 1:
        print(__doc__)
        return 1
    with tempfile.TemporaryDirectory() as folder:
        mutex = os.path.join(folder, "mutex_turns")
        subprocess.run(["rustc", "--edition", "2021", "-O", "-o", mutex, MUTEX], check=True)
        print("threads  microseconds held  program    ns a turn  processor ns a turn")
        for row in ROWS:
            threads, turns, pause = row
            times = {"turn_lock": [], "Mutex": []}
            for _ in range(RUNS):
                times["turn_lock"].append(run(LOCK, row))
                times["Mutex"].append(run(mutex, row))
            for name, found in times.items():
                clock, processor = (statistics.median(column) * 1e9 / (threads * turns) for column in zip(*found))
                print(f"{threads:7}  {pause:17}  {name:9}  {clock:9.1f}  {processor:19.1f}")
    return 0


if __name__ == "__main__":
    sys.exit(main())

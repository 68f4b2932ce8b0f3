#!/usr/bin/env python3
"""Runs the gate, with the seconds since its beginning at each of its lines, and prints what each crate took.

    scripts/timed.py COMMAND..

Each line of the command that begins with `rt:` gets the seconds before it; those that begin with `statements` aren't shown. Then a table
shows for each crate when its last process ended and how many seconds of processor time its processes took (proofs, builds, edits and tests),
the largest first. These are read from /proc every two seconds, so they are a little too small. The exit status is the command's.
"""

import os
import subprocess
import sys
import threading
import time

INTERVAL = 2.0


def processes():
    """What runs: process -> (parent, start, seconds of processor time)."""
    ticks = os.sysconf("SC_CLK_TCK")
    found = {}
    for process in filter(str.isdigit, os.listdir("/proc")):
        try:
            with open(f"/proc/{process}/stat", encoding="utf-8", errors="replace") as file:
                fields = file.read().rpartition(")")[2].split()
        except OSError:
            continue  # it ended meanwhile
        found[process] = (fields[1], fields[19], sum(map(int, fields[11:15])) / ticks)
    return found


def crate_of(process):
    """The crate that a process proves or builds, if it is one of the prover's."""
    try:
        with open(f"/proc/{process}/cmdline", encoding="utf-8", errors="replace") as file:
            words = file.read().split("\0")
        return words[words.index("--crate-name") + 1]
    except (OSError, ValueError, IndexError):
        return None


def seconds_of_crates(top):
    """What a process and those below it take for crates: (process, start) -> (crate, seconds of processor time)."""
    running = processes()
    found = {}
    for process, (parent, start, used) in running.items():
        while parent in running and parent != top:
            parent = running[parent][0]
        if parent == top:
            crate = crate_of(process)
            if crate is not None:
                found[process, start] = (crate, used)
    return found


class Sampler(threading.Thread):
    """Looks at the processes from time to time until it is stopped."""

    def __init__(self, top, began):
        super().__init__(daemon=True)
        self.top, self.began, self.stopped = str(top), began, threading.Event()
        self.used, self.last = {}, {}

    def run(self):
        while not self.stopped.wait(INTERVAL):
            for key, (crate, used) in seconds_of_crates(self.top).items():
                self.used[key] = (crate, used)
                self.last[crate] = time.monotonic() - self.began

    def table(self):
        """A line for each crate, and their sum."""
        sums = {}
        for crate, used in self.used.values():
            sums[crate] = sums.get(crate, 0) + used
        for crate, used in sorted(sums.items(), key=lambda item: -item[1]):
            yield f"{used:8.0f} CPU s  {crate}, until {self.last[crate]:.0f} s"
        yield f"{sum(sums.values()):8.0f} CPU s  in all"


def main():
    if len(sys.argv) < 2 or sys.argv[1].startswith("-"):
        print(__doc__.strip())
        return 0 if sys.argv[1:] == ["--help"] else 2
    began = time.monotonic()
    with subprocess.Popen(sys.argv[1:], stdout=subprocess.PIPE, stderr=subprocess.STDOUT, text=True, errors="replace") as command:
        sampler = Sampler(command.pid, began)
        sampler.start()
        for line in command.stdout:
            if line.startswith("rt:"):
                print(f"[{time.monotonic() - began:5.0f} s] {line}", end="", flush=True)
            elif not line.startswith("statements "):
                print(line, end="", flush=True)
    sampler.stopped.set()
    sampler.join()
    print(*sampler.table(), sep="\n")
    return command.returncode


if __name__ == "__main__":
    sys.exit(main())

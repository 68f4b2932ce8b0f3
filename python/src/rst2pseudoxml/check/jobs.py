"""Runs over pages in several processes, in the order of the pages."""

from __future__ import annotations

import marshal
import os
import select
import struct
import sys
import time
from typing import Callable, Iterator, NoReturn, Sequence, Tuple

Outcome = Tuple[str, bool, Tuple[str, ...]]
Check = Callable[[str], Outcome]
CHUNKS = 1000  # their numbers have room in a pipe


class Stopped(Exception):
    """A process has ended before its pages were checked."""


def outcomes(pages: Sequence[str], check: Check, jobs: int) -> Iterator[Outcome]:
    """What a check of each page gives, in order."""
    jobs = min(jobs, len(pages) // 16)
    if jobs < 2:
        yield from map(check, pages)
        return
    size = max(1, min(16, len(pages) // (4 * jobs)), -(-len(pages) // CHUNKS))
    chunks = [pages[start : start + size] for start in range(0, len(pages), size)]
    waiting: dict[int, list[Outcome]] = {}
    place = 0
    for number, found in _frames(chunks, check, jobs):
        waiting[number] = found
        while place in waiting:
            yield from waiting.pop(place)
            place += 1
    if place < len(chunks):
        raise Stopped("a process has ended before its pages were checked")


def _frames(chunks: Sequence[Sequence[str]], check: Check, jobs: int) -> Iterator[tuple[int, list[Outcome]]]:
    """The number of each chunk, and what its pages gave, as processes get to it. Each takes the next number from a pipe."""
    sys.stdout.flush()
    sys.stderr.flush()
    numbers, put = os.pipe()
    os.write(put, b"".join(struct.pack("=I", number) for number in range(len(chunks))))
    os.close(put)
    workers = dict(_worker(chunks, check, numbers) for _ in range(jobs))
    os.close(numbers)
    try:
        while workers:
            for ready in select.select(list(workers), [], [])[0]:
                head = _taken(ready, 4)
                if not head:
                    os.close(ready)
                    os.waitpid(workers.pop(ready), 0)
                    continue
                yield marshal.loads(_taken(ready, struct.unpack("=I", head)[0]))
    finally:
        for ready, worker in workers.items():
            os.close(ready)
            os.waitpid(worker, 0)


def _taken(place: int, size: int) -> bytes:
    """So many bytes from a pipe, or none if it is at its end."""
    parts: list[bytes] = []
    while size and (part := os.read(place, size)):
        parts.append(part)
        size -= len(part)
    return b"" if size else b"".join(parts)


def _worker(chunks: Sequence[Sequence[str]], check: Check, numbers: int) -> tuple[int, int]:
    """Starts a process: what it puts out is read at the first number, the second is its own."""
    out, put = os.pipe()
    worker = os.fork()
    if worker:
        os.close(put)
        return out, worker
    os.close(out)
    _work(chunks, check, numbers, put)


def _work(chunks: Sequence[Sequence[str]], check: Check, numbers: int, put: int) -> NoReturn:
    try:
        while number := os.read(numbers, 4):
            (chunk,) = struct.unpack("=I", number)
            frame = marshal.dumps((chunk, [check(page) for page in chunks[chunk]]))
            frame = struct.pack("=I", len(frame)) + frame
            while frame:
                frame = frame[os.write(put, frame) :]
    except BaseException:
        sys.excepthook(*sys.exc_info())
        os._exit(1)
    os._exit(0)


class Progress:
    """A line on a terminal that says how many pages are done, once a second has passed."""

    def __init__(self, pages: int) -> None:
        self.pages = pages
        self.shows = sys.stderr.isatty()
        self.next = time.monotonic() + 1
        self.seen = False

    def at(self, done: int) -> None:
        if self.shows and (now := time.monotonic()) >= self.next:
            print(f"\r{done} of {self.pages} pages", end="\x1b[K", file=sys.stderr, flush=True)
            self.next, self.seen = now + 0.2, True

    def hide(self) -> None:
        if self.seen:
            print("\r", end="\x1b[K", file=sys.stderr, flush=True)
            self.seen = False

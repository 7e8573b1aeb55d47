#!/usr/bin/env -S python3 -B
"""How many stable WRITEs of 4 KiB the program answers in a second, one after the other, beside a bare loop of the same calls of the disk: two writes, each
followed by a sync of the data.

    bench/stable_writes.py [--program crates/bluesky/out/bluesky] [--writes 3000] [--turns 5] [--folder FOLDER]"""
import argparse
import os
import statistics
import tempfile
import time

from client import Run

PIECE = bytes(range(256)) * 16


def program_rate(program, folder, writes):
    run = Run(program, os.path.join(folder, "journal"), os.path.join(folder, "cloud"))
    _, handle = run.create(b"file")
    since = time.monotonic()
    for number in range(writes):
        if run.write(handle, number * len(PIECE), PIECE):
            raise SystemExit("a WRITE was refused: fewer --writes, as the journal is full")
    rate = writes / (time.monotonic() - since)
    run.end()
    return rate


def bare_rate(folder, writes):
    path = os.path.join(folder, "bare")
    with open(path, "wb") as file:
        file.truncate(1 << 27)
        os.fsync(file.fileno())
        since = time.monotonic()
        for number in range(writes):
            at = 64 + number * (len(PIECE) + 100)
            os.pwrite(file.fileno(), PIECE + bytes(100), at + 1)
            os.fdatasync(file.fileno())
            os.pwrite(file.fileno(), b"\1", at)
            os.fdatasync(file.fileno())
        return writes / (time.monotonic() - since)


def main():
    words = argparse.ArgumentParser(description=__doc__, formatter_class=argparse.RawDescriptionHelpFormatter)
    words.add_argument("--program", default="crates/bluesky/out/bluesky")
    words.add_argument("--writes", type=int, default=3000)
    words.add_argument("--turns", type=int, default=5)
    words.add_argument("--folder")
    given = words.parse_args()
    ratios = []
    for _ in range(given.turns):
        with tempfile.TemporaryDirectory(dir=given.folder) as folder:
            ours, bare = program_rate(given.program, folder, given.writes), bare_rate(folder, given.writes)
        ratios.append(ours / bare)
        print(f"{ours:.0f} WRITEs a second, and {bare:.0f} in the bare loop")
    print(f"median of the ratio: {statistics.median(ratios):.2f}")


if __name__ == "__main__":
    main()

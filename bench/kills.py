#!/usr/bin/env -S python3 -B
"""Ends the program by SIGKILL at random moments while files are made and written, and looks whether each run after that finds every change that was
acknowledged. At the end all files are read back.

    bench/kills.py [--program crates/bluesky/out/bluesky] [--kills 200] [--folder FOLDER] [--seed N]

It ends with 1 where a change is missing. The folder should be on a real disk; what a loss of power leaves is not tried."""
import argparse
import os
import random
import sys
import tempfile
import threading

from client import Run, Stopped


def work(run, files, chance):
    """Makes files and writes to them until the program is gone. How many changes were acknowledged; `files` has what each holds."""
    done = 0
    try:
        while True:
            name = b"file-%d" % len(files)
            status, handle = run.create(name)
            if status == 17:  # it was made by the run before, and not acknowledged
                status, handle = run.look_up(name)
                done -= 1
            if status:
                raise Stopped
            files[name] = b""
            done += 1
            for _ in range(chance.randrange(12)):
                piece = bytes([chance.randrange(256)]) * chance.randrange(1, 400)
                if run.write(handle, len(files[name]), piece):
                    raise Stopped
                files[name] += piece
                done += 1
    except Stopped:
        return done


def check(run, files):
    """The names of the files that don't hold what was acknowledged. The call under way when the run was ended may have happened too."""
    wrong = []
    for name, held in files.items():
        status, handle = run.look_up(name)
        status, found = run.read(handle, 65536) if status == 0 else (status, b"")
        if status or not found.startswith(held):
            wrong.append(name)
    return wrong


def main():
    words = argparse.ArgumentParser(description=__doc__, formatter_class=argparse.RawDescriptionHelpFormatter)
    words.add_argument("--program", default="crates/bluesky/out/bluesky")
    words.add_argument("--kills", type=int, default=200)
    words.add_argument("--folder")
    words.add_argument("--seed", type=int, default=1)
    given = words.parse_args()
    chance = random.Random(given.seed)
    with tempfile.TemporaryDirectory(dir=given.folder) as folder:
        journal, cloud = os.path.join(folder, "journal"), os.path.join(folder, "cloud")
        files, acknowledged, lost = {}, 0, 0
        for number in range(given.kills):
            run = Run(given.program, journal, cloud)
            if not acknowledged <= run.changes <= acknowledged + 1:
                print(f"run {number + 1}: {run.changes} changes found, {acknowledged} were acknowledged")
                lost += 1
            acknowledged = run.changes
            kill = threading.Timer(chance.uniform(0.01, 0.4), run.process.kill)
            kill.start()
            acknowledged += work(run, files, chance)
            kill.join()
            run.process.wait()
        run = Run(given.program, journal, cloud)
        wrong = check(run, files)
        status = run.end()
        print(f"{given.kills} kills, {acknowledged} changes acknowledged, {len(files)} files, epoch {run.epoch}")
        print(f"runs that found another number of changes: {lost}; files that don't hold what was written: {len(wrong)}; last status {status}")
        sys.exit(1 if lost or wrong or status else 0)


if __name__ == "__main__":
    main()

#!/usr/bin/env python3
"""Lists what a check spent its time on: seconds for each module that it wrote, the most first.

    python3 tools/module_times.py CRATE [MINUTES [ROWS]]

CRATE is a crate's folder in which `rt check --jobs 1` has just ended, MINUTES how far back to look (10), ROWS how many
modules to list (25). A module's seconds are those since the module before it was written, so they mean something only
with one job and on a quiet machine. `NAME.Lts` is the proof that the function NAME drops and borrows soundly.
"""
import os
import sys
import time


def written_since(folder, start):
    """When each file of the folder was written, and its path, from the oldest to the newest."""
    found = []
    for root, _, names in os.walk(folder):
        for name in names:
            path = os.path.join(root, name)
            when = os.stat(path).st_mtime
            if when >= start:
                found.append((when, os.path.relpath(path, folder)))
    return sorted(found)


def main(crate, minutes="10", rows="25"):
    files = written_since(os.path.join(crate, "out"), time.time() - 60 * float(minutes))
    seconds = [(later - earlier, path) for (earlier, _), (later, path) in zip(files, files[1:])]
    for spent, path in sorted(seconds, reverse=True)[: int(rows)]:
        print(f"{spent:8.1f} s  {path}")


if __name__ == "__main__":
    if not 2 <= len(sys.argv) <= 4:
        sys.exit(__doc__)
    main(*sys.argv[1:])

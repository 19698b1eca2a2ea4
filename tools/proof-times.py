#!/usr/bin/env python3
"""Prints where the time of a crate's proof went, by what `rt check` has kept.

    cd crates/CRATE && rm -rf out && rt check --jobs 1 && ../../tools/proof-times.py . [COUNT]

The prover makes some modules of each function, and keeps each as a file when it is checked. So the
time of a module is the time since the file before it was written: seconds by the clock, of one check
from nothing with one job. Lts is the step relation of a function, which is made of its code; Tie and
Proof are made over it. After an edit the sizes of the modules that were made anew say more than
times. With COUNT it prints so many of the dearest modules, else 25.
"""
import collections
import glob
import os
import sys

WHOLE = "(others)"


def modules(folder):
    """The modules that are kept: when each was written, its bytes and its name."""
    found = []
    for path in glob.glob(f"{folder}/out/incremental/*/*.oantt"):
        state = os.stat(path)
        found.append((state.st_mtime, state.st_size, os.path.basename(path)[: -len(".oantt")]))
    return sorted(found)


def main(folder, count):
    found = modules(folder)
    if not found:
        sys.exit(f"{folder}: nothing is kept here: run `rt check --jobs 1` in it first")
    seconds, sizes, before, each = collections.Counter(), collections.Counter(), found[0][0], []
    for written, size, name in found:
        kind = name.rsplit(".", 1)[-1]
        kind = kind if kind in ("Lts", "Tie", "Proof", "Layout", "Reads", "Mir", "Code") else WHOLE
        seconds[kind] += written - before
        sizes[kind] += size
        each.append((written - before, size, name))
        before = written
    print(f"{len(found)} modules, {sum(size for _, size, _ in found) / 1e6:.0f} MB, "
          f"{found[-1][0] - found[0][0]:.0f} s")
    for kind, taken in seconds.most_common():
        print(f"{taken:8.1f} s {sizes[kind] / 1e6:7.1f} MB  {kind}")
    print("the dearest:")
    for taken, size, name in sorted(each, reverse=True)[:count]:
        print(f"{taken:8.1f} s {size / 1e3:7.0f} KB  {name}")


if __name__ == "__main__":
    if len(sys.argv) not in (2, 3):
        sys.exit(__doc__)
    main(sys.argv[1], int(sys.argv[2]) if len(sys.argv) == 3 else 25)

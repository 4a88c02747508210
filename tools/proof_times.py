#!/usr/bin/env python3
"""Prints how long each part of a crate took in its first check, the longest first.

usage: tools/proof_times.py FOLDER [SECONDS]

FOLDER is the folder that the check saved its modules in, `crates/NAME/out/incremental` after `rt check --jobs 1` of a
crate with no `out/`. The check saves each module as soon as it is proved, so the times of the files tell how long each
took: `x.f.Lts`, `x.f.Proof` and their like are of the function f, `+name` is a cycle of functions, and the others are
files of lemmas. Parts under SECONDS (1 if not given) are left out.
"""
import os
import sys


def modules(folder):
    """The time at which each module was saved, with its name, the earliest first."""
    found = []
    for at, _, names in os.walk(folder):
        for name in names:
            if name.endswith(".oantt") and not name.endswith(".decls.oantt"):
                found.append((os.stat(os.path.join(at, name)).st_mtime, name[: -len(".oantt")]))
    return sorted(found)


def main():
    if not 2 <= len(sys.argv) <= 3:
        sys.exit(__doc__)
    found = modules(sys.argv[1])
    if not found:
        sys.exit(f"{sys.argv[1]} holds no saved modules")
    least = float(sys.argv[2]) if len(sys.argv) > 2 else 1.0
    taken = [(later - earlier, name) for (earlier, _), (later, name) in zip(found, found[1:])]
    print(f"{len(found)} modules in {found[-1][0] - found[0][0]:.0f} seconds")
    for seconds, name in sorted(taken, reverse=True):
        if seconds >= least:
            print(f"{seconds:7.1f}  {name}")


main()

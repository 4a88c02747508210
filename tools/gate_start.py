#!/usr/bin/env python3
"""Prints what the start of `rt ci` does before its first proof, and which dependencies make it long.

usage: tools/gate_start.py

Run it at the top of the repository. For each crate `rt ci` walks all paths through crates.txt below the crate, once for
each of its source files and once for each name that these import for contracts. The sum of these walks is printed, then
the crates with the largest share, then the dependencies whose removal would save the most, with the number of files
that name them.
"""
import os
import re

ROWS = 15


def rows():
    """The crates of the repository that each crate lists."""
    listed = {}
    with open("crates.txt", encoding="utf-8") as file:
        for line in file:
            line = line.partition("#")[0]
            if ":" in line:
                name, _, after = line.partition(":")
                listed[name.split()[0]] = after.split()
    return {name: [it for it in after if it in listed] for name, after in listed.items()}


def texts(crate, parts, ends):
    for part in parts:
        for at, _, names in os.walk(f"crates/{crate}/{part}"):
            for name in names:
                if name.endswith(ends):
                    with open(os.path.join(at, name), encoding="utf-8") as file:
                        yield file.read()


def walks(crate):
    """How often the paths below a crate are walked: for each source file, and for each name that it imports."""
    count = 0
    for text in texts(crate, ["src"], ".rt"):
        count += 1
        for item in re.findall(r"(?m)^[ \t]*ghost use\b([^;]*);", text):
            names = [it.strip() for it in re.split(r"[{},]", item)]
            count += sum(1 for it in names if it and not it.endswith("."))
    return count


def paths(below):
    """The number of paths below each crate."""
    found = {}

    def count(name):
        if name not in found:
            found[name] = sum(1 + count(it) for it in below[name])
        return found[name]

    for name in below:
        count(name)
    return found


def total(below, often):
    return sum(count * often[name] for name, count in paths(below).items())


def uses(crate, other):
    named = re.compile(rf"\b{other}(?:\.|::)")
    return sum(1 for text in texts(crate, ["src", "specs", "proofs"], (".rt", ".antt")) if named.search(text))


def main():
    below = rows()
    often = {name: walks(name) for name in below}
    count, whole = paths(below), total(below, often)
    print(f"{whole} steps in all")
    print("\nshare   paths  walks  crate")
    for name in sorted(below, key=lambda it: -count[it] * often[it])[:ROWS]:
        print(f"{count[name] * often[name] / whole:5.1%} {count[name]:7} {often[name]:6}  {name}")
    saved = []
    for name in below:
        for other in below[name]:
            fewer = {**below, name: [it for it in below[name] if it != other]}
            saved.append((1 - total(fewer, often) / whole, name, other))
    print("\nsaved  files  dependency")
    for share, name, other in sorted(saved, reverse=True)[:ROWS]:
        print(f"{share:5.1%} {uses(name, other):6}  {name} -> {other}")


main()

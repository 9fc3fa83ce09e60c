#!/usr/bin/env python3
"""Spells the names that proofs and definitions declare for their own use as tools/respell.py spells the others. Run once, at the top.

A name that a block inside a file declares is turned in that file, and in all files of the crates where it is `pub`.
"""

import re

import respell

DECLARED = re.compile(r"^ +((?:(?:abbrev|unfoldable|pub|let) +)*)([^\s(){}.;,@\"«»]+) (?:\{[^}]*\} )?:(?= )")


def found(path):
    for line in respell.read(path).split("\n"):
        m = DECLARED.match(line.split("--")[0])
        if m and respell.spelled(m.group(2)) != m.group(2) and not re.search(r": goal\.", line):
            yield m.group(2), "pub" in m.group(1).split()


def main():
    everywhere = {}
    for path in respell.files("crates", ".antt"):
        rows = {name: respell.spelled(name) for name, _ in found(path)}
        everywhere.update({name: rows[name] for name, is_pub in found(path) if is_pub})
        words = set(respell.TOKEN.findall(respell.read(path)))
        for name in rows:
            # A lemma that would have its function's name gets an ending.
            rows[name] += "_lem" if rows[name] in words else ""
        respell.write(path, respell.turn_code(respell.read(path), rows, "--"))
    for path in [*respell.files("crates", ".antt"), *respell.files("crates", ".rt", ".edit")]:
        respell.write(path, respell.turn_code(respell.read(path), everywhere, "--" if path.endswith(".antt") else "//"))
    print("everywhere:", *everywhere)


if __name__ == "__main__":
    main()

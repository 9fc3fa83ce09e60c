#!/usr/bin/env python3
"""Spells this repository's own ghost names as today's Rattle does: functions, lemmas and fields in snake case, types and
modules in camel case. Run once, right after the kit's port.py, at the top of the repository. With --list it only prints the table.

It goes by declared names: those of specs/ and proofs/, but for the answers that a generated module `goal` names. Text in comments
changes only inside backticks, or where the word is camel case; names in docs/ and README.md only inside backticks.
"""

import os
import re
import sys

TOKEN = re.compile(r"[^\s(){}.;,@\"«»]+")
HEAD = re.compile(r"^(?:(?:abbrev|unfoldable|pub|record|data|instance) +)*([^\s(){}.;,@\"«»]+)(?= [^=]*?:)")
IN_MODULE = re.compile(r"^  (?:(?:abbrev|unfoldable|pub) +)*([^\s(){}.;,@\"«»]+) :")
FIELD = re.compile(r"^ +(?:pub +)?([^\s(){}.;,@\"«»]+) :")
# A name that would fall together with another one gets the ending of a lemma with its function's name; a fact is a type.
BY_HAND = {
    "block-byte": "block_byte_lem",
    "draft-outline": "draft_outline_lem",
    "one-short": "one_short_lem",
    "segment-byte": "segment_byte_lem",
    "segments-byte": "segments_byte_lem",
    "grey-block": "grey_block_lem",
    "laid_out": "laid_out_lem",
    "outline-by": "outline_by_lem",
    "page-side": "page_side_lem",
    "picture-by": "picture_by_lem",
    "picture-in": "picture_in_lem",
    "pixel-from": "pixel_from_lem",
    "pixel-row": "pixel_row_lem",
    "row-byte": "row_byte_lem",
    "shown_of": "shown_of_lem",
    "tile-side": "tile_side_lem",
    "liveBegin": "LiveBegin",
    "liveCarry": "LiveCarry",
    "liveRest": "LiveRest",
    "liveSwitch": "LiveSwitch",
    "spans": "Spans",
}
# Files where the word is a variable.
VARIABLE_IN = {"spans": "crates/places/"}
# Words that the text declares and that stay.
STAY = set()


def files(root, *endings):
    for folder, dirs, names in os.walk(root):
        dirs[:] = sorted(d for d in dirs if d not in ("out", ".git", "target"))
        for name in sorted(names):
            if name.endswith(endings):
                yield os.path.join(folder, name)


def read(path):
    with open(path, encoding="utf-8") as f:
        return f.read()


def is_answers(path):
    return os.path.basename(path) in ("Answers.antt", "Invariants.antt", "Proof.antt") or "/Answers/" in path


def declared(path):
    """The names that a file of antt declares, with whether each is one of a record's fields or a constructor."""
    inside = within = False
    for line in read(path).split("\n"):
        line = line.split("--")[0]
        if not line.strip():
            continue
        if line[0] != " ":
            within = line.startswith("module ")
            inside = bool(re.match(r"(abbrev |unfoldable |pub )*(record|data) ", line))
            if re.match(r"(pub )?(use|mod|unfolding|ruleset)\b", line):
                continue
            m = HEAD.match(line)
            if m:
                if is_answers(path) and re.search(r": goal\.", line):
                    continue
                yield m.group(1)
        elif inside or within:
            m = (FIELD if inside else IN_MODULE).match(line)
            if m:
                yield m.group(1)


def spelled(name):
    if name in BY_HAND:
        return BY_HAND[name]
    if name in STAY or "◌" in name:
        return name
    # The library's getD is get_or now.
    name = re.sub(r"\bgetD\b", "get_or", name)
    if re.match(r"[A-Z]", name):
        head, *rest = name.split("-")
        return head + "".join(it[:1].upper() + it[1:] for it in rest)
    name = name.replace("-", "_")
    return re.sub(r"(?<=[a-z0-9])([A-Z])", lambda m: "_" + m.group(1).lower(), name)


def table(root):
    names = {}
    for path in files(os.path.join(root, "crates"), ".antt"):
        for name in declared(path):
            names.setdefault(name, []).append(path)
    return names


def turn_words(text, rows):
    return TOKEN.sub(lambda m: rows.get(m.group(0), m.group(0)), text)


def turn_comment(text, rows):
    text = re.sub(r"`[^`]*`", lambda m: turn_words(m.group(0).replace("`", " "), rows).replace(" ", "`", 1)[:-1] + "`", text)
    camel = {old: new for old, new in rows.items() if re.match(r"[a-z]+[A-Z]", old)}
    return TOKEN.sub(lambda m: camel.get(m.group(0), m.group(0)), text)


def turn_code(text, rows, mark):
    out = []
    for line in text.split("\n"):
        code, sep, comment = line.partition(mark)
        # A mark inside a string is none.
        while sep and code.count('"') % 2:
            more, again, comment2 = comment.partition(mark)
            code, sep, comment = code + sep + more, again, comment2
        parts = re.split(r'("(?:[^"\\]|\\.)*")', code)
        code = "".join(it if it.startswith('"') else turn_words(it, rows) for it in parts)
        out.append(code + sep + turn_comment(comment, rows) if sep else code)
    return "\n".join(out)


def turn_markdown(text, rows):
    return re.sub(r"`[^`\n]+`", lambda m: "`" + turn_words(m.group(0)[1:-1], rows) + "`", text)


def rename_crate():
    """The kit has a library `bytes` now, so the crate of that name is `octets`."""
    os.rename("crates/bytes", "crates/octets")
    write("crates.txt", re.sub(r"\bbytes\b", "octets", read("crates.txt")))
    for path in files("crates", ".antt", ".rt", ".edit"):
        write(path, re.sub(r"(?<=\bRattle\.)bytes(?=\.)|(?<=\buse )bytes(?=::)", "octets", read(path)))
    for path in [*files("docs", ".md"), "README.md"]:
        write(path, re.sub(r"`bytes`(?=:|[ ]*\|)", "`octets`", read(path)))


def without_variables(path, rows):
    return {old: new for old, new in rows.items() if VARIABLE_IN.get(old, " ") not in path}


def main():
    if os.path.isdir("crates/octets"):
        sys.exit("respell: this was done already")
    names = table(".")
    rows = {old: spelled(old) for old in names if spelled(old) != old}
    back = {}
    for old in names:
        back.setdefault(spelled(old), []).append(old)
    for new, olds in sorted(back.items()):
        if len(olds) > 1:
            print("falls together:", new, *[f"{it} ({', '.join(sorted(set(names[it])))})" for it in olds])
    if "--list" in sys.argv:
        for old, new in sorted(rows.items()):
            print(old, new)
        return
    for path in files("crates", ".antt"):
        write(path, turn_code(read(path), without_variables(path, rows), "--"))
    for path in files("crates", ".rt", ".edit"):
        write(path, turn_code(read(path), rows, "//"))
    for path in [*files("docs", ".md"), "README.md"]:
        write(path, turn_markdown(read(path), rows))
    rename_crate()


def write(path, text):
    if text != read(path):
        with open(path, "w", encoding="utf-8") as f:
            f.write(text)


if __name__ == "__main__":
    main()

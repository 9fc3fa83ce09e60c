#!/usr/bin/env python3
"""Sets the contracts of two states of the repository side by side, as a page's part in Markdown.

    tools/compare.py OLD-COMMIT [NEW-COMMIT]     without NEW-COMMIT: the working tree

It lists, crate by crate, public functions with their clauses, types with their fields and ghost fields, ghost members of
impls and traits, and the definitions and theorems of specs/, each where it differs from the old state, is new or is gone.
What it calls gone may stand under another name: docs/DESIGN-PASS.md says what states its promise.
"""
import re
import sys
from collections import OrderedDict

from tree import ROOT, files


def without_comments(text, mark):
    return [line for line in text.split("\n") if not line.lstrip().startswith(mark)]


def squeeze(lines):
    return re.sub(r"\s+", " ", " ".join(lines)).strip().rstrip(",{ ").strip()


def rattle(crate, text, out):
    lines = without_comments(text, "//")
    owner = ""
    i = 0
    while i < len(lines):
        line = lines[i]
        if re.match(r"(impl|pub trait|trait|unsafe impl)\b", line):
            owner = re.sub(r"\s*\{.*$", "", line)
            owner = re.sub(r"^(pub )?(impl|trait)(<[^>]*>)?\s*", "", owner).strip()
            owner = re.sub(r"<'\w+>", "", owner)
            # a type may be made from several
            if not re.match(r"(Try)?From<", owner):
                owner = re.sub(r"<.*?>", "", owner)
        elif line.startswith("}"):
            owner = ""
        found = re.match(r"(\s*)(pub )?(const )?fn (\w+)", line)
        if found and (found.group(2) or " for " in owner or not owner.islower() and owner and re.match(r"\s+fn", line) and "trait" in owner):
            head, indent = [], found.group(1)
            while i < len(lines):
                head.append(lines[i])
                if lines[i].rstrip().endswith(";") or (i + 1 < len(lines) and lines[i + 1] in (indent + "{", indent + "{}")):
                    break
                if lines[i].rstrip().endswith("{") and "ensures" not in lines[i] and "requires" not in lines[i]:
                    break
                if lines[i].rstrip().endswith("{}"):
                    break
                i += 1
            shown = [h.rstrip().rstrip("{").rstrip() for h in head]
            clauses = [h.strip() for h in shown if re.match(r"\s*(ensures|requires)", h)]
            sign = squeeze([h for h in shown if not re.match(r"\s*(ensures|requires)", h)])
            out[(crate, "fn", owner, found.group(4))] = [sign] + clauses
        found = re.match(r"pub (struct|enum|type) (\w+)", line)
        if found:
            body = [line]
            if not line.rstrip().endswith(";"):
                while i + 1 < len(lines) and not lines[i].startswith("}"):
                    i += 1
                    body.append(lines[i])
            fields = [b.strip().rstrip(",") for b in body[1:] if b.strip() and b.strip() != "}"]
            out[(crate, "type", "", found.group(2))] = [body[0].strip().rstrip("{").strip()] + fields
        found = re.match(r"\s+ghost (\w+)(:| =) (.*)$", line)
        if found and owner and lines[i].startswith("    ghost") and not out.get((crate, "type", "", owner)):
            out[(crate, "ghost", owner, found.group(1))] = [line.strip().rstrip(";")]
        i += 1


def antt(crate, text, out):
    name, held = None, []

    def put():
        if name:
            out[(crate, "spec", "", name)] = [re.sub(r"\s+", " ", h).strip() for h in held if h.strip()]

    for line in without_comments(text, "--"):
        found = re.match(r"(?:abbrev |unfoldable )?(?:pub )?(?:record |data )?(?:pub )?([\w'◌-]+)", line)
        if line and not line[0].isspace() and found and not line.startswith(("use ", "pub use", "pub mod", "mod ", "module", "}")):
            if name != found.group(1):
                put()
                name, held = found.group(1), []
            held.append(line)
        elif name and line.strip():
            held.append(line)
        elif not line.strip():
            continue
    put()


def state(commit):
    out = OrderedDict()
    for name, text in files(commit, lambda name: re.search(r"/(src/.*\.rt|specs/.*\.antt)$", name)):
        crate = name.split("/")[1]
        (rattle if name.endswith(".rt") else antt)(crate, text, out)
    return out


def cell(parts):
    return "<br>".join("`" + p.replace("|", "\\|").replace("`", "'") + "`" for p in parts) if parts else ""


def main(old, new=None):
    before, after = state(old), state(new)
    crates = list(OrderedDict.fromkeys([k[0] for k in list(after) + list(before)]))
    order = [line.split(":")[0] for line in open(f"{ROOT}/crates.txt") if ":" in line and not line.startswith("#")]
    crates.sort(key=lambda c: order.index(c) if c in order else 99)
    for crate in crates:
        rows = []
        for key in OrderedDict.fromkeys(list(before) + list(after)):
            if key[0] != crate or before.get(key) == after.get(key):
                continue
            what = {"fn": "", "type": "type ", "ghost": "ghost ", "spec": "specs: "}[key[1]]
            label = what + (f"{key[2]}::" if key[2] else "") + key[3]
            a, b = before.get(key), after.get(key)
            if a and b:
                same = set(a) & set(b)
                a, b = [x for x in a if x not in same], [x for x in b if x not in same]
                rows.append(f"| {label} | {cell(a)} | {cell(b)} |")
            else:
                rows.append(f"| {label} | {cell(a) or '(new)'} | {cell(b) or '(gone)'} |")
        if rows:
            print(f"\n#### {crate}\n\n| | Old | New |\n|---|---|---|")
            print("\n".join(rows))


main(*sys.argv[1:])

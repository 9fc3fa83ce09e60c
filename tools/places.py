#!/usr/bin/env python3
"""Counts the places that docs/DESIGN-PASS.md speaks of, by patterns over the code of crates/*/src.

    tools/places.py [--at COMMIT] [POINT ..]     a line for each place, and last the counts

A pattern finds candidates: the page says of each whether it was changed, or is kept and why.
"""
import re
import sys
from collections import defaultdict

from tree import files


def sources(commit, ending, folder):
    """The files of a folder of each crate, with their lines."""
    for name, text in files(commit, lambda name: name.endswith(ending) and f"/{folder}/" in name):
        yield name, text.split("\n")


def code(line):
    return "" if line.lstrip().startswith("//") else line


CODES = r"(turn|first|second|orientation|arrow|kind|photometric|compression|fill|planes|live|tag)"
LINES = {
    # 1: an arm that only passes a failure on, a failure taken apart by hand, a flag, a number for a kind, a number for none
    "1 failing arm": r"(Err\(\w+\)|None) => (return |break )?(Err\(|None\b|default|\"\"|false|\{ *$)|^\s*if let Err\(|Err\(_\) => unreachable",
    "1 flag": r"(?<![.\w])\w+: bool\b",
    "1 number for a kind": rf"(?<![.\w]){CODES}: u(8|16|32)\b",
    "1 number for none": r"\breturn 0;|else \{ 0 \}|_ => 0,|None => \"\"|_ => 0$",
    # 3
    "3 loop": r"^\s*(while|loop)\b|^\s*for \w+ in .*\.\.",
    # 6: an array in a field or a parameter; a buffer with a place or a count beside
    "6 array": r":\s*(&mut |&)?\[\w+; *\w+\]",
    "6 buffer with a place": r"buffer: &mut \[u8\], at: usize|buffer: &(mut )?\[u8; 512\]",
    # 7
    "7 word by word": r"== \"|match (\w+\.)?pile\b|\bdyn\b",
}


def functions(lines):
    """Each function of a file: its line, its head up to the body, and its body's lines."""
    i = 0
    while i < len(lines):
        if re.match(r"\s*(pub(\(crate\))? )?(const )?fn \w+", lines[i]):
            start = i
            indent = len(lines[i]) - len(lines[i].lstrip())
            head = []
            if re.search(r"\{.*\}\s*$", lines[i]) and "ensures" not in lines[i]:
                yield start, lines[i], []
                i += 1
                continue
            while i < len(lines) and lines[i] not in (" " * indent + "{", " " * indent + "{}") and not (
                    lines[i].rstrip().endswith("{") and "ensures" not in lines[i]) and not lines[i].rstrip().endswith(";"):
                head.append(lines[i])
                i += 1
            if i < len(lines):
                head.append(lines[i].rstrip(" {;"))
            body = []
            i += 1
            while i < len(lines) and not lines[i].startswith(" " * indent + "}"):
                body.append(lines[i])
                i += 1
            yield start, "\n".join(head), body
        i += 1


def conversions(name, lines):
    """4: a function whose body is one match from words or numbers to values, or that copies a struct field by field."""
    for start, head, body in functions(lines):
        text = [code(b).strip() for b in body if code(b).strip()]
        arms = [t for t in text if re.match(r"[\w:\"' |*\[\]()_]+ =>", t)]
        literal = [t for t in arms if re.search(r"=> *(\"|\d|Some\(\w+::|Ok\(\w+::|\w+::\w+,)|^(\d|\")", t)]
        if text and text[0].startswith("match ") and len(literal) >= 2 and len(literal) == len(arms):
            yield start, "match to values"
        if sum(1 for t in text if re.match(r"(\w+): self\.\1,", t)) >= 2:
            yield start, "field by field"
        if re.search(r"fn (eq|cmp|partial_cmp|clone|hash)\b", head):
            yield start, "written by hand"


KEYWORDS = {"match", "if", "else", "for", "while", "loop", "let", "return", "mut", "as", "in", "Ok", "Err", "Some", "None", "self"}


def shape(body):
    """A body with its names, numbers and texts left out."""
    text = " ".join(code(b) for b in body)
    text = re.sub(r'b?"(\\.|[^"])*"', "s", text)
    tokens = re.findall(r"[A-Za-z_]\w*|\d[\w.]*|[^\w\s]", text)
    return tuple(t if t in KEYWORDS or not t[0].isalnum() and t[0] != "_" else "i" if t[0].isalpha() or t[0] == "_" else "n"
                 for t in tokens)


def twins(files):
    """2: functions whose bodies are alike but for names, numbers and texts."""
    seen = defaultdict(list)
    for name, lines in files:
        for start, head, body in functions(lines):
            found = shape(body)
            if len(found) >= 14:
                called = re.search(r"fn (\w+)", head).group(1)
                seen[found].append(f"{name}:{start + 1}: {called}")
    for found, where in sorted(seen.items(), key=lambda item: -len(item[0])):
        if len(where) > 1:
            yield where


def clauses(files):
    """5: a clause that three or more functions have, and two parameters that three or more functions take."""
    seen, pairs = defaultdict(list), defaultdict(list)
    for name, lines in files:
        for start, head, _ in functions(lines):
            for clause in re.findall(r"(?:requires|ensures)\s*\w*\s*\{(.*)\}", head):
                seen[re.sub(r"\s+", " ", clause.strip())].append(f"{name}:{start + 1}")
            params = re.findall(r"(\w+): ((?:&(?:'\w+ )?(?:mut )?)?[A-Z&\[][\w<>'\[\]; ]*|u\d+|usize|bool)", head.split("->")[0].split("requires")[0].split("ensures")[0])
            params = [f"{a}: {b.strip()}" for a, b in params]
            for i, a in enumerate(params):
                for b in params[i + 1:]:
                    pairs[f"{a}, {b}"].append(f"{name}:{start + 1}")
    for what, table in (("5 clause", seen), ("5 parameters", pairs)):
        for key, where in sorted(table.items(), key=lambda item: -len(item[1])):
            if len(set(where)) >= 3:
                yield what, f"{len(set(where))} functions", key


def main(words):
    commit = None
    if words[:1] == ["--at"]:
        commit, words = words[1], words[2:]
    wanted = set(words) or {"1", "2", "3", "4", "5", "6", "7", "8"}
    code_files = list(sources(commit, ".rt", "src"))
    counts = defaultdict(int)
    for name, lines in code_files:
        for number, line in enumerate(lines, 1):
            for what, pattern in LINES.items():
                if what[0] in wanted and re.search(pattern, code(line)):
                    print(f"{what}: {name}:{number}: {line.strip()}")
                    counts[what] += 1
        if "4" in wanted:
            for start, what in conversions(name, lines):
                print(f"4 {what}: {name}:{start + 1}: {lines[start].strip()}")
                counts[f"4 {what}"] += 1
    if "2" in wanted:
        for where in twins(code_files):
            print("2 alike: " + "; ".join(where))
            counts["2 group of functions alike"] += 1
            counts["2 function alike to another"] += len(where)
    if "5" in wanted:
        for what, where, key in clauses(code_files):
            print(f"{what}: {where}: {key}")
            counts[what] += 1
    if "8" in wanted:
        for name, lines in sources(commit, ".antt", "proofs"):
            kind = "8 answer" if name.endswith("/Answers.antt") else "8 invariant" if name.endswith("/Invariants.antt") else "8 lemma"
            here = [l for l in lines if re.match(r"(abbrev |unfoldable )?(pub )?[\w'-]+( [^=]*)? :(?!=)", l)]
            counts[kind] += len(here)
            counts["8 line of proofs/"] += len([l for l in lines if l.strip()])
    print()
    for what in sorted(counts):
        print(f"{what}: {counts[what]}")


main(sys.argv[1:])

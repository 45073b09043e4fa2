#!/usr/bin/env python3
"""Brings the names of this repository's own definitions and lemmas to the spelling of the kit's library.

A fact or a type, whose name has a capital, goes to camel case: `Safe-after` becomes `SafeAfter`.
Every other name goes to snake case: `same-train` becomes `same_train`.
A name that would be that of a function of src/ gets `_lem`.
A name that the check makes (`returns-..`, `loop-..`, what stands after `c.` or `goal.`) and a name of the library stay.

Run once at the top of a tree that has been through the kit's `port.py`; a second run changes nothing.
"""
import collections
import glob
import os
import re
import sys

NAME = r"[A-Za-z_][A-Za-z0-9_'′]*(?:-[A-Za-z0-9_'′]+)+"
PLAIN = re.compile(r"(?<![\w'′\-])(" + NAME + r")(?![\w'′]|-\w)")
LIBRARY = re.compile(r"^\s*(?:ghost )?use (?:Rattle\.std|denote|borrow|mathlib|lib|Prim|specs|logic)\S*\.\{([^}]*)\}", re.M)
MADE = ("returns-", "loop-", "invariant-loop", "invariant_of-", "decreases-", "overflow", "bounds", "slice_bounds", "slice-bounds",
        "nonzero", "invariant-of-", "prove-", "unreachable-", "ghost-", "ghost_", "offset", "in-default", "main-")


def is_answers(path):
    return os.path.basename(path) in ("Answers.antt", "Invariants.antt", "Proof.antt")


def own_names(texts):
    """The names with a dash that the repository declares, and those that it takes from the library."""
    own, library = collections.Counter(), set()
    for path, text in texts.items():
        if not path.endswith((".antt", ".rt")):
            continue
        for found in LIBRARY.finditer(text):
            library |= {part.strip().split(" as ")[-1] for part in found.group(1).split(",")}
        if not path.endswith(".antt"):
            continue
        made = set(re.findall(r"goal\.(" + NAME + r")", text))
        code = re.sub(r"--.*", "", text)
        declared = re.findall(r"^\s*(?:(?:abbrev|unfoldable|pub|record|data) )*(" + NAME + r")(?:\s+\([^)]*\))*\s*:\s", code, re.M)
        bound = re.findall(r"\blet (" + NAME + r")(?:\s*:|\s*=)", code)
        bound += [n for group in re.findall(r"[λ(]\s*\(?((?:" + NAME + r"|[\w']+)(?: (?:" + NAME + r"|[\w']+))*) :", code)
                  for n in group.split() if "-" in n]
        for name in declared + bound:
            if name not in made and not (is_answers(path) and name.startswith(MADE)):
                own[name] += 1
    return own, library


def respelled(name):
    parts = name.split("-")
    if name[0].isupper():
        return "".join(part[0].upper() + part[1:] for part in parts)
    return "_".join(parts)


def turned(path, text, table):
    """The text with its names respelled: in code everywhere, in prose between backticks."""
    def one(found):
        before = text_now[: found.start()]
        if re.search(r"(?:\bc|goal|\bw)\.$", before):
            return found.group(0)
        return table.get(found.group(1), found.group(1))

    def code(part):
        nonlocal text_now
        text_now = part
        return PLAIN.sub(one, part)

    text_now = text
    if path.endswith(".md"):
        return re.sub(r"`[^`\n]*`", lambda quoted: code(quoted.group(0)), text)
    mark = "--" if path.endswith(".antt") else "//"
    lines = []
    for line in text.split("\n"):
        at = line.find(mark) if not path.endswith(".edit") else -1
        head, tail = (line, "") if at < 0 else (line[:at], line[at:])
        lines.append(code(head) + re.sub(r"`[^`\n]*`", lambda quoted: code(quoted.group(0)), tail))
    return "\n".join(lines)


def main():
    patterns = ["crates/*/specs/**/*.antt", "crates/*/proofs/**/*.antt", "crates/*/src/**/*.rt", "crates/*/must-fail/*.edit",
                "crates/*/must-fail/*.md", "docs/*.md", "README.md"]
    paths = sorted({path for pattern in patterns for path in glob.glob(pattern, recursive=True)} - {"docs/PORT.md"})
    texts = {path: open(path, encoding="utf-8").read() for path in paths}
    own, library = own_names(texts)
    functions = {name for path, text in texts.items() if path.endswith(".rt") for name in re.findall(r"\bfn (\w+)", text)}
    table = {name: respelled(name) for name in own if name not in library}
    table = {name: new + "_lem" if new in functions else new for name, new in table.items()}
    taken = set(re.findall(r"[\w']+", " ".join(text for path, text in texts.items() if path.endswith(".antt"))))
    targets = collections.defaultdict(list)
    for name, new in table.items():
        targets[new].append(name)
    for new, names in sorted(targets.items()):
        if len(names) > 1 or new in taken:
            print(f"fall together: {', '.join(names)} -> {new}", file=sys.stderr)
    for path, text in texts.items():
        new = turned(path, text, table)
        if new != text:
            open(path, "w", encoding="utf-8").write(new)
    print(f"{len(table)} names respelled; left as the library has them: {', '.join(sorted(set(own) & library)) or 'none'}")


if __name__ == "__main__":
    main()

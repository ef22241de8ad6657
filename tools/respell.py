#!/usr/bin/env python3
"""Brings the names of definitions and lemmas to the spelling of today's Rattle: words in snake case (docs/PORT.md).

usage: tools/respell.py [ROOT]     run once, after port.py; files are rewritten in place

- a name such as `voiceRead`, of a definition, a lemma, a field or an import, becomes `voice_read`, in code, clauses, comments and documents;
- a name with dashes that a file of specs/ declares, such as `zero-when-equal`, becomes `zero_when_equal`; in comments and documents only between
  backticks, where it is no English;
- two lemmas that would then have a definition's name, and one file that Rattle's own module would hide, get another.
Names of src/ (functions, types, fields), exported C names and strings stay: none of them is in the first form.
"""

import os
import re
import sys

ROOT = sys.argv[1] if len(sys.argv) > 1 else os.path.join(os.path.dirname(os.path.abspath(__file__)), "..")
CAMEL = re.compile(r"(?<![\w'\-])[a-z][a-z0-9]*(?:[A-Z][A-Za-z0-9]*)+(?![\w'])")
KEPT = {"dBm0"}
DECLARED = re.compile(r"^\s*(?:(?:abbrev|unfoldable|pub) )*([^\W\d][\w']*(?:-[\w']+)+) :(?: |$)", re.M)
FIRST = [  # (file, old, new): names that would fall together, and the file that `specs.contracts` would hide
    ("crates/voice/proofs/Sizes.antt", r"(?<![\w.'\-])front_by(?![\w'\-])", "front_fair"),
    ("crates/writer/proofs/WriteCases.antt", r"(?<![\w.'\-])made_as(?![\w'\-])", "made_is"),
]


def files(ends, *tops):
    for top in tops:
        top = os.path.join(ROOT, top)
        if os.path.isfile(top):
            yield top
        for folder, dirs, names in os.walk(top):
            dirs[:] = sorted(d for d in dirs if d != "out")
            yield from (os.path.join(folder, n) for n in sorted(names) if n.endswith(ends))


def read(path):
    with open(path, encoding="utf-8") as f:
        return f.read()


def write(path, text):
    if text != read(path):
        with open(path, "w", encoding="utf-8") as f:
            f.write(text)


def snake(name):
    return re.sub(r"(?<=[a-z0-9])[A-Z]", lambda m: "_" + m.group().lower(), name)


def undashed(text, dashed):
    return dashed.sub(lambda m: m.group().replace("-", "_"), text)


def in_ticks(text, dashed):
    return re.sub(r"`[^`\n]*`", lambda m: undashed(m.group(), dashed), text)


def main():
    for path, old, new in FIRST:
        path = os.path.join(ROOT, path)
        write(path, re.sub(old, new, read(path)))
    meeting = os.path.join(ROOT, "crates/contracts/specs/Contracts.antt")
    if os.path.exists(meeting):
        os.rename(meeting, os.path.join(ROOT, "crates/contracts/specs/Meeting.antt"))
        lib = os.path.join(ROOT, "crates/contracts/specs/Lib.antt")
        write(lib, read(lib).replace("pub mod Contracts", "pub mod Meeting"))
    source = list(files((".antt", ".rt"), "crates"))
    edits = list(files(".edit", "crates"))
    papers = list(files(".md", "README.md", "docs"))
    camel, dashes = set(), set()
    for path in source:
        camel |= set(CAMEL.findall(read(path))) - KEPT
        if "/specs/" in path:
            dashes |= set(DECLARED.findall(read(path)))
    camel_name = re.compile(r"(?<![\w'\-])(?:" + "|".join(sorted(camel, key=len, reverse=True)) + r")(?![\w'\-])")
    dashed = re.compile(r"(?<![\w'\-])(?:" + "|".join(sorted(dashes, key=len, reverse=True)) + r")(?![\w'\-])")
    for path in source + edits + papers:
        text = camel_name.sub(lambda m: snake(m.group()), read(path))
        text = text.replace("contracts.specs.Contracts", "contracts.specs.Meeting").replace("specs/Contracts.antt", "specs/Meeting.antt")
        if path.endswith(".antt"):
            lines = []
            for line in text.split("\n"):
                code, mark, words = line.partition("--")
                lines.append(undashed(code, dashed) + mark + in_ticks(words, dashed))
            text = "\n".join(lines)
        elif path.endswith(".edit"):
            text = undashed(text, dashed)
        elif path.endswith(".md"):
            text = in_ticks(text, dashed)
        write(path, text)
    print(f"respelled: {len(camel)} names in the first form, {len(dashes)} with dashes")


main()

#!/usr/bin/env python3
"""Brings this repository's own names in specs/ and proofs/ to snake case, where port.py left them in camel case or with dashes.

usage: python3 tools/spell_names.py           at the top, once, after port.py
       python3 tools/spell_names.py --list    prints each old name and its new one, and changes nothing

A name is taken that a signature of an .antt file declares, is not a type, and has a capital inside or a dash. Functions of src/ keep their names.
"""

import glob
import re
import sys

TOKEN = re.compile(r"[^\s(){}\[\],;.\"`:]+")
SIGNATURE = re.compile(r"^\s*(?:pub |abbrev |unfoldable )*([^\s(){}\[\],;.\":λ]+) :( |$)")
IMPORT = re.compile(r"^\s*(?:ghost )?use (?!Rattle\.(?!std\.))[\w.+-]+\.\{([^}]*)\}")

# Where two names would fall together, the lemma's takes _lem. Some of these have had their snake case from port.py.
LEMMAS = """as_read count-had end-fault entry-text fields_had head-fault in-word in_all is-fine line-feed lines-text need-fault need-fields needy-of
resolved-fault root-fits root-only state-of version-fault version-fields version-in with_byte"""
SPECIAL = {name: name.replace("-", "_") + "_lem" for name in LEMMAS.split()}


def snake(name):
    name = name.replace("getD", "get_or").replace("flatMap", "flat_map")
    name = re.sub(r"([a-z0-9])([A-Z])", lambda m: m.group(1) + "_" + m.group(2).lower(), name)
    return name.replace("-", "_")


def files(*patterns):
    return [f for p in patterns for f in sorted(glob.glob(p, recursive=True)) if "/out/" not in f]


def read(path):
    with open(path, encoding="utf-8") as f:
        return f.read()


def declared(paths):
    names = set()
    for path in paths:
        if path.endswith("/Proof.antt"):
            continue
        for line in read(path).split("\n"):
            m = SIGNATURE.match(line)
            if m and not m.group(1)[0].isupper() and re.search(r"[a-z0-9][A-Z]|-", m.group(1)):
                names.add(m.group(1))
    return names


def imported(paths):
    names = set()
    for path in paths:
        for line in read(path).split("\n"):
            m = IMPORT.match(line)
            if m:
                names.update(n.split(" as ")[-1].strip() for n in m.group(1).split(","))
    return names


def respell(text, names, everywhere):
    """The text with its names respelled: in comments and pages only those in back quotes."""

    def word(m):
        return names.get(m.group(0), m.group(0))

    def quoted(m):
        return "`" + TOKEN.sub(word, m.group(1)) + "`"

    lines = []
    for line in text.split("\n"):
        start = re.search(r"(^|\s)(--|//)(\s|$)", line) if everywhere else None
        code, rest = (line[: start.start()], line[start.start() :]) if start else (line, "") if everywhere else ("", line)
        lines.append(TOKEN.sub(word, code) + re.sub(r"`([^`\n]+)`", quoted, rest))
    return "\n".join(lines)


def main():
    proofs = files("crates/*/specs/**/*.antt", "crates/*/proofs/**/*.antt")
    sources = files("crates/*/src/**/*.rt")
    pages = files("README.md", "docs/*.md")
    edits = files("crates/*/must-fail/*.edit")
    names = {n: snake(n) for n in declared(proofs)} | SPECIAL
    library = imported(proofs + sources)
    for old in sorted(names):
        if old in library:
            print(f"left, a name of the library too: {old}")
            del names[old]
    present = {t for p in proofs for t in TOKEN.findall(re.sub(r"--.*", "", read(p)))} | {"search", "data", "record", "open", "where", "at", "as", "in", "do"}
    seen = {}
    for old in sorted(names):
        new = names[old]
        if new in seen:
            print(f"fall together: {seen[new]} and {old}: {new}")
        elif new in present or new in library:
            print(f"is there already: {old}: {new}")
        seen[new] = old
    if "--list" in sys.argv:
        for old in sorted(names):
            print(f"{old}\t{names[old]}")
        return
    for path in proofs + sources + edits + pages:
        text = read(path)
        new = respell(text, names, not path.endswith(".md"))
        if new != text:
            with open(path, "w", encoding="utf-8") as f:
                f.write(new)


main()

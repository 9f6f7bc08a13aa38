#!/usr/bin/env python3
"""Brings the names of definitions and lemmas to today's spelling: fareOf -> fare_of, reads-back -> reads_back, length-fareOf -> length-fare_of.

usage: python3 tools/spell_names.py            at the top of the repository, once, after the kit's port.py

Words are in snake case; a dash stays where it joins two names of functions. Types and modules keep their capitals, code and strings stay.
A name that would fall together with another that is declared gets `_lem`; each such place is printed, and so is each new name with --list.
"""

import collections
import os
import re
import sys

KIT = os.path.join(os.path.dirname(os.path.dirname(os.path.realpath(__import__("shutil").which("rt")))), "rattle")
TOKEN = re.compile(r"[^\s(){}.;,@\"«»\[\]\\`'|:/]+(?:'[^\s(){}.;,@\"«»\[\]\\`|:/]*)?")
CAMEL = re.compile(r"[a-z][a-z0-9]*(?:[A-Z][a-z0-9]*)+'*$")
DECLARED = re.compile(
    r"(\s*)(?:(?:abbrev|unfoldable|opaque|pub|open|private)\s+)*(?:(record|data)\s+)?([^\s:(){},.=|]+)(?:\s+(?:\([^)]*\)|\{[^}]*\}))*\s*:(?:\s|$)"
)


def files(suffixes):
    for folder, dirs, names in os.walk("crates"):
        dirs[:] = sorted(d for d in dirs if d != "out")
        for name in sorted(names):
            if name.endswith(suffixes):
                yield os.path.join(folder, name)


def read(path):
    with open(path, encoding="utf-8", newline="") as it:
        return it.read()


def of_a_function(path):
    """Whether the file is a function's own proof, whose dashed names are those of goals."""
    return os.path.basename(path) == "Proof.antt"


def snake(name):
    parts = re.findall(r"[a-z0-9]+|[A-Z][a-z0-9]*", name.rstrip("'"))
    return "_".join(p.lower() for p in parts) + "'" * (len(name) - len(name.rstrip("'")))


def declared():
    """Each declared name with its files, and those that are functions with a body to see."""
    out, functions = collections.defaultdict(set), set()
    for path in files(".antt"):
        for line in read(path).split("\n"):
            if line.lstrip().startswith(("use ", "mod ", "pub use ", "pub mod ", "--", "module ", "open ")):
                continue
            m = DECLARED.match(line)
            if m:
                out[m[3]].add(path)
                if re.match(r"\s*(abbrev|unfoldable)\b", line) and re.match(r"[a-z]", m[3]):
                    functions.add(m[3])
    return out, functions


def of_std():
    words = set()
    for part in ("std/specs/Prelude.antt", "std/proofs/Common.antt"):
        for line in read(os.path.join(KIT, part)).split("\n"):
            m = re.search(r"\.\{(.*)\}", line)
            if m:
                words |= {w.strip().split(" as ")[-1] for w in m[1].split(",")}
    return {w for w in words if re.match(r"[a-z][a-z0-9_]*$", w)}


def main():
    names, functions = declared()
    std = of_std()
    camel = lambda w: snake(w) if CAMEL.match(w) else w
    functions = set(map(camel, functions)) | std
    new = {}
    for path in files(".antt"):
        for word in TOKEN.findall(re.sub(r"--[^\n]*", "", read(path))):
            if CAMEL.match(word):
                new[word] = snake(word)
    # what keeps its name, unless a definition now has it: then a lemma of that name gets `_lem`
    given = set(new.values())
    for name, at in sorted(names.items()):
        if all(map(of_a_function, at)) or not re.match(r"[A-Za-z]", name) or name in new:
            continue
        parts = [camel(p) for p in name.split("-")]
        halves = (("_".join(parts[:i]), "_".join(parts[i:])) for i in range(1, len(parts)))
        to = next((f"{a}-{b}" for a, b in halves if a in functions and b in functions), "_".join(parts))
        if to in given or (to in names and to != name and "-" in name):
            print(f"falls together: {name} -> {to}", file=sys.stderr)
            to += "_lem"
        if to != name:
            new[name] = to
    for path in files(".antt"):
        for word in TOKEN.findall(re.sub(r"--[^\n]*", "", read(path))):
            if "-" in word and word not in new and any(CAMEL.match(p) for p in word.split("-")):
                new[word] = "-".join(map(camel, word.split("-")))
    if "--list" in sys.argv:
        for name, to in sorted(new.items()):
            print(name, to)

    def spelled(text):
        return TOKEN.sub(lambda m: new.get(m[0], m[0]), text)

    def in_source(text):
        # all but what stands between quotes
        return "".join(t if i % 2 else spelled(t) for i, t in enumerate(re.split(r"(\"(?:[^\"\\\n]|\\.)*\"|'(?:[^'\\\n]|\\.)')", text)))

    for path in files((".antt", ".rt")):
        text = read(path)
        if path.endswith(".rt"):
            to = "".join(l if l.lstrip().startswith("mod ") else in_source(l) for l in text.splitlines(keepends=True))
        else:
            to = spelled(text)
        if to != text:
            with open(path, "w", encoding="utf-8", newline="") as it:
                it.write(to)


if __name__ == "__main__":
    main()

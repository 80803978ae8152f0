#!/usr/bin/env python3
"""Brings the repository's own words of contracts and lemmas to one spelling: snake case, types and facts in camel case.

usage: python3 tools/respell.py            at the top, after the toolchain's own script, once
       python3 tools/respell.py --list     only lists what it would rename, and which names fall together

It takes the names that specs/ and the lemma files of proofs/ define (definitions, constructors, fields, lemmas), and turns
those with a dash or with a capital inside. Names that the check makes (the goals of an answer), comments and text in quotes
stay. It also gives the crate `hex`, whose name is a library's, the name `hexadecimal`.
"""

import glob
import os
import re
import subprocess
import sys

# what a name may be made of, so that a whole name is taken and never a part
WORD = r"[A-Za-z_][A-Za-z0-9_'-]*"
DEFINES = re.compile(r"^\s*(?:(?:abbrev|pub|unfoldable|data|record)\s+)*(%s)\s+(?:\(.*\)\s*|\{.*\}\s*)*:\s" % WORD)
CONSTRUCTOR = re.compile(r"^\s*\|?\s*(?:pub\s+)?(%s)\s*:\s" % WORD)


def spelled(name):
    name = name.replace("getD", "get_or")
    if name[0].isupper():
        return "".join(w[:1].upper() + w[1:] for w in name.split("-"))
    name = re.sub(r"([a-z0-9])([A-Z])", lambda m: m.group(1) + "_" + m.group(2).lower(), name)
    return name.replace("-", "_")


def texts():
    for pattern in ("crates/*/specs/**/*.antt", "crates/*/proofs/**/*.antt", "crates/*/src/**/*.rt"):
        yield from sorted(glob.glob(pattern, recursive=True))


def defined():
    """The names to turn, and where each stands."""
    found = {}
    for pattern in ("crates/*/specs/**/*.antt", "crates/*/proofs/*.antt"):
        for path in sorted(glob.glob(pattern, recursive=True)):
            with open(path, encoding="utf-8") as f:
                for line in f:
                    m = DEFINES.match(line) or CONSTRUCTOR.match(line)
                    if m and "goal." not in line and spelled(m.group(1)) != m.group(1):
                        found.setdefault(m.group(1), set()).add(path)
    return found


def turned(text, names, comment):
    """The text with each name respelled, outside comments and quotes."""
    word = re.compile(r"(?<![A-Za-z0-9_'-])(" + "|".join(sorted(map(re.escape, names), key=len, reverse=True)) + r")(?![A-Za-z0-9_'-])")
    out = []
    for line in text.splitlines(keepends=True):
        parts = re.split(r'("(?:[^"\\]|\\.)*"|%s.*)' % comment, line)
        out.append("".join(p if i % 2 else word.sub(lambda m: spelled(m.group(1)), p) for i, p in enumerate(parts)))
    return "".join(out)


def together(names):
    """Names that would fall together, with one another or with a word that stands already."""
    said = []
    new = {}
    for n in names:
        new.setdefault(spelled(n), set()).add(n)
    said += [f"{' and '.join(sorted(old))} become {n}" for n, old in new.items() if len(old) > 1]
    tokens = {}
    for path in texts():
        with open(path, encoding="utf-8") as f:
            for t in set(re.findall(WORD, f.read())):
                tokens.setdefault(t, set()).add(path)
    said += [f"{n} stands already, in {', '.join(sorted(tokens[n]))[:200]}" for n in sorted(new) if n in tokens]
    return said


def rename_crate(old, new):
    if not os.path.isdir(f"crates/{old}"):
        return
    subprocess.run(["git", "mv", f"crates/{old}", f"crates/{new}"], check=True)
    for path in texts():
        with open(path, encoding="utf-8") as f:
            text = f.read()
        t = re.sub(rf"\bRattle\.{old}\.", f"Rattle.{new}.", text)
        t = re.sub(rf"\buse {old}::", f"use {new}::", t)
        if t != text:
            with open(path, "w", encoding="utf-8") as f:
                f.write(t)
    with open("crates.txt", encoding="utf-8") as f:
        text = f.read()
    with open("crates.txt", "w", encoding="utf-8") as f:
        f.write(re.sub(rf"(?m)(?<=[ ^]){old}\b|^{old}\b", new, text))


def main(argv):
    os.chdir(subprocess.run(["git", "rev-parse", "--show-toplevel"], check=True, capture_output=True, text=True).stdout.strip())
    names = defined()
    for line in together(names):
        print("look: " + line)
    if argv == ["--list"]:
        for n in sorted(names):
            print(f"{n} -> {spelled(n)}")
        return
    count = 0
    for path in texts():
        with open(path, encoding="utf-8") as f:
            text = f.read()
        t = turned(text, names, "//" if path.endswith(".rt") else "--")
        if t != text:
            count += 1
            with open(path, "w", encoding="utf-8") as f:
                f.write(t)
    rename_crate("hex", "hexadecimal")
    print(f"{len(names)} names turned, in {count} files")


if __name__ == "__main__":
    main(sys.argv[1:])

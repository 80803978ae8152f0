#!/usr/bin/env python3
"""Lists the places of docs/DESIGN-PASS.md in crates/*/src: python3 tools/places.py [POINT].

Each line is a candidate, found by its spelling; the page says which of them are places.
"""
import collections
import difflib
import glob
import itertools
import re
import sys

SOURCES = sorted(glob.glob("crates/*/src/**/*.rt", recursive=True))
TEXT = {name: open(name, encoding="utf-8").read() for name in SOURCES}


def lines(pattern, skip=r"ghost |^\s*//"):
    """The lines of the sources that fit a pattern, but those of clauses and comments."""
    for name, text in TEXT.items():
        for number, line in enumerate(text.splitlines(), 1):
            if re.search(pattern, line) and not re.search(skip, line):
                yield f"{name}:{number}: {line.strip()}"


def functions():
    """Each function: where it stands, its name, its parameters, its clauses, its tokens."""
    head = re.compile(r"^( *)(?:pub(?:\(\w+\))? )?(?:const )?(?:extern \"C\" )?fn (\w+)(?:<.*?>)?\(", re.M)
    for name, text in TEXT.items():
        for found in head.finditer(text):
            indent = found.group(1)
            end = found.end()
            for line in text[found.end() :].splitlines(keepends=True):
                end += len(line)
                if line.rstrip().endswith(";"):
                    break
                if line.rstrip().endswith("{") and not re.match(r" *(requires|ensures)", line):
                    end = text.find(f"\n{indent}}}", end)
                    break
            body = text[found.start() : end]
            parameters = re.findall(r"(\w+): (?!\{)", body[found.end() - found.start() :].split("{")[0].split("->")[0])
            clauses = re.findall(r"(?:requires|ensures)(?: \w+)? (\{.*\})$", body, re.M)
            code = re.sub(r"^ *(requires|ensures).*$", "", body, flags=re.M)
            code = re.sub(r"//.*", "", code)
            tokens = re.findall(r"\w+|[^\w\s]", code)
            plain = ["0" if re.match(r"\d", t) else "T" if re.match(r"[A-Z]", t) else t for t in tokens]
            number = text.count("\n", 0, found.start()) + 1
            yield f"{name}:{number}", found.group(2), parameters, clauses, plain


def kinds():
    yield from lines(r"^(pub |pub\(crate\) )?enum ")
    yield from lines(r"^    (pub |pub\(crate\) )?\w+: bool,")
    yield from lines(r"header\([0-9]|(opcode|message\[0\]|kind|number) [=!]= [0-9]|kind: u32|number: (u8|usize)|=> [0-9]+,|: \[u32; 32\]")


def twins():
    for (a, f, _, _, s), (b, g, _, _, t) in itertools.combinations(functions(), 2):
        if min(len(s), len(t)) < 24 or f == "main" or "/tests" in a or "/tests" in b:
            continue
        if difflib.SequenceMatcher(None, s, t, autojunk=False).ratio() >= 0.8:
            yield f"{a} {f} and {b} {g}"


def loops():
    yield from lines(r"^\s*(for \w+ in .*\.\.|while |loop )")


def by_hand():
    yield from lines(r"impl.* (PartialEq|Eq|PartialOrd|Ord|Clone|Copy|Default|Hash|From<.*>|TryFrom<.*>|fmt::\w+) for ")
    yield from lines(r"fn (\w+_text|digit_of|identity|number|opcode|octets|read|of|word_at|words_text)\b.*[{(]")
    for name, text in TEXT.items():
        for found in re.finditer(r"(#\[derive\(([^)]*)\)\]\n)?pub (struct|enum) (\w+)", text):
            if "Debug" not in (found.group(2) or ""):
                yield f"{name}: {found.group(4)} has no derived Debug"


def repeated():
    clauses = collections.Counter()
    pairs = collections.Counter()
    for where, _, parameters, said, _ in functions():
        clauses.update(set(said))
        pairs.update(itertools.combinations(sorted(set(parameters) - {"f", "self"}), 2))
    for clause, count in clauses.most_common():
        if count >= 3:
            yield f"{count} times: {clause}"
    for (a, b), count in pairs.most_common():
        if count >= 3:
            yield f"{count} functions: parameters {a} and {b}"


def buffers():
    yield from lines(r"^    (pub |pub\(crate\) )?(len|count|used|size): (usize|u8|u32|bool),")
    yield from lines(r"\[\w+; \d+\],$|rows: .*, cells|entries: &mut \[")


def switches():
    yield from lines(r"match (\w+\.)?(call|kind|choice|policy|store)\b|: fn\(|\[fn\(|&dyn |Box<dyn ")


def answers():
    for name in sorted(glob.glob("crates/*/proofs", recursive=True)):
        count = lemmas = 0
        for file in glob.glob(f"{name}/**/*.antt", recursive=True):
            names = set(re.findall(r"^(?:pub |abbrev pub |abbrev )*([^\s:]+) : ", open(file, encoding="utf-8").read(), re.M))
            if file.endswith(("Answers.antt", "Invariants.antt")):
                count += len(names)
            else:
                lemmas += len(names)
        yield f"{name}: {count} answers and invariants, {lemmas} lemmas in files of their own"


POINTS = [kinds, twins, loops, by_hand, repeated, buffers, switches, answers]
for point, find in enumerate(POINTS, 1):
    if len(sys.argv) > 1 and sys.argv[1] != str(point):
        continue
    found = list(find())
    print(f"{point}. {find.__name__}: {len(found)}")
    for line in found:
        print(f"   {line}")

#!/usr/bin/env python3
"""Counts the older forms that docs/DESIGN-PASS.md speaks of: `tools/forms.py` at the top of a checkout; with `list` it prints each place."""
import glob
import re
import sys
from collections import defaultdict

FILES = sorted(glob.glob("crates/*/src/*.rt"))
LIST = "list" in sys.argv[1:]


def places(pattern, only=None):
    """FILE:LINE of each line that has the pattern."""
    found = []
    for name in FILES:
        if only and not re.search(only, name):
            continue
        for number, line in enumerate(open(name, encoding="utf-8"), 1):
            if line.lstrip().startswith("//"):
                continue
            found += [f"{name}:{number} {line.strip()}"] * len(re.findall(pattern, line))
    return found


def functions():
    """(FILE:LINE NAME, head, body) of each function."""
    for name in FILES:
        text = open(name, encoding="utf-8").read()
        for m in re.finditer(r"^([ \t]*)((?:pub(?:\(crate\))? )?(?:extern \"C\" )?fn (\w+).*?)\n\1\{\n(.*?)\n\1\}$"
                             r"|^([ \t]*)((?:pub(?:\(crate\))? )?fn (\w+)[^\n]*) \{\n(.*?)\n\5\}$", text, re.M | re.S):
            head, fn, body = (m.group(2), m.group(3), m.group(4)) if m.group(3) else (m.group(6), m.group(7), m.group(8))
            yield f"{name}:{text.count(chr(10), 0, m.start()) + 1} {fn}", head, body


def twins():
    """Functions whose bodies differ in names, numbers and texts alone, and have twelve words or more."""
    same = defaultdict(list)
    for place, _, body in functions():
        body = re.sub(r"//[^\n]*", "", body)
        words = re.findall(r"b?\"(?:[^\"\\]|\\.)*\"|b?'(?:[^'\\]|\\.)+'|\w+|[^\w\s]", body)
        keep = {"if", "else", "return", "while", "for", "in", "let", "mut", "match", "true", "false", "fn", "as", "self"}
        shape = " ".join(w if w in keep or not re.match(r"[\w\"']|b[\"']", w) else "_" for w in words)
        if len(words) >= 12:
            same[shape].append(place)
    return [p for group in same.values() if len(group) > 1 for p in group]


def pairs():
    """Enums of two cases, of which one or both hold a value."""
    found = []
    for name in FILES:
        text = open(name, encoding="utf-8").read()
        for m in re.finditer(r"^ *(?:pub(?:\(crate\))? )?enum (\w+) \{\n(.*?)\n *\}", text, re.M | re.S):
            cases = [line.strip() for line in m.group(2).splitlines() if line.strip() and not line.strip().startswith(("//", "#"))]
            if len(cases) == 2 and any("(" in case or "{" in case for case in cases):
                found.append(f"{name}:{text.count(chr(10), 0, m.start()) + 1} {m.group(1)}")
    return found


def heads(*words):
    """Functions with all of these parameters."""
    return [place for place, head, _ in functions() if all(re.search(rf"\b{w}: ", head) for w in words)]


POINTS = [
    ("1 own enums of the shape of Option, Result or Ordering",
     places(r"\benum (?:Filed|Replied|Decimal|Piece|Body|Head|Opened|Wrote|Checked|Order)\b")),
    ("1 own enums of two cases, of which one holds a value", pairs()),
    ("1 other own enums", places(r"^\s*(?:pub(?:\(crate\))? )?enum (?!Filed|Replied|Decimal|Piece|Body|Head|Opened|Wrote|Checked|Order\b)")),
    ("1 fields that are flags", places(r"^\s+(?:pub )?\w+: bool,$")),
    ("1 refusals as numbers, or by a case of one's own", places(r"return [1-9][0-9]*;|Refused\(|refusal_in\(|\bn != 0")),
    ("1 constants that number kinds", places(r"^\s*(?:pub )?const [A-Z_]+: u8 =")),
    ("2 functions alike but for names, numbers and texts", twins()),
    ("3 loops by while", places(r"\bwhile\b")),
    ("3 loops by for over numbers", places(r"\bfor \w+ in \(?\w[\w().]*\.\.")),
    ("4 equality, order, width by functions of one's own", places(r"\b(?:text::)?(?:same|compare|wide)\(|\.same\(")),
    ("4 conversions by as", places(r"\bas (?:u8|u16|u32|u64|usize)\b")),
    ("5 functions lent reporters and currencies", heads("reporters", "currencies")),
    ("5 functions lent a sender and its record", heads("sender", "record")),
    ("5 functions lent a record and its index", heads("record", "stops")),
    ("5 functions lent both lists of texts and their index", heads("member", "ours", "rows")),
    ("5 clauses on a compartment's length", places(r"requires.*length c\.(?:now|old) ≡ compartment_size")),
    ("6 functions lent a buffer and a place in it", heads("out", "at")),
    ("6 sorted lists searched by hand", places(r"while low < high")),
    ("7 flags and kinds that choose a step", places(r"\b(?:addressed|any): bool|kind: Kind")),
]

for what, found in POINTS:
    print(f"{len(found):4} {what}")
    if LIST:
        for place in found:
            print(f"       {place}")
lines = lambda pattern: sum(len(open(f, encoding="utf-8").read().splitlines()) for f in glob.glob(pattern))
print(f"{lines('crates/*/proofs/*/*.antt') + lines('crates/*/proofs/*/*/*.antt'):4} 8 lines of invariants and answers")
print(f"{lines('crates/*/proofs/*.antt'):4} 8 lines of laws")

#!/usr/bin/env python3
"""Respells the repository's own definitions and lemmas as today's Rattle spells names: words in snake case, no dash, a prime as an apostrophe.

usage: tools/respell.py FOLDER [--list]

FOLDER is a checkout of the repository behind port.py. It writes crates/*/specs, crates/*/proofs, the contracts in crates/*/src (ghost use lines
and clauses) and crates/*/must-fail; Rattle's own names (of goals and steps, of the library) stay, and so does the code of src/. --list prints the names.
A name is renamed where a file declares it, brings it by a use line, or reaches it as a field.
"""
import os
import re
import sys

NAME = r"[^\s(){}\[\];,.:@\"«»λ]+"
DECLARED = re.compile(rf"^(\s*)(?:(?:unfoldable|abbrev|pub) )*(?:(record|data) )?({NAME}) *(?:\{{[^}}]*\}} *|\([^)]*\) *)*:(?!:)")
CASE = re.compile(rf"^\s*\| ({NAME}) *:")
USE = re.compile(r"^\s*(?:pub |ghost |unfoldable )*use ([^\s{;]+?)\.\{([^}]*)\}")
TOKEN = re.compile(r"[^\s(){}\[\];,.:@\"«»]+")
# Lemmas that would have their function's name, and three constructors that would have an export's.
LEMMAS = {
    ("failures", "added-from"), ("answer", "answer-in"), ("calls", "answers-over"), ("booking", "can-book"), ("frame", "earlier-fits"),
    ("ledger", "empty-ledger"), ("fields", "field-by"), ("ledger", "filled_row"), ("ledger", "first-row"), ("calls", "formal-by"), ("calls", "in-a-row"),
    ("tables", "found-money"), ("error_file", "known-code"), ("ledger", "ledger-size"), ("identifier", "letter-sum"), ("envelope", "lines_at"),
    ("envelope", "lines_then"), ("enclosing", "lines_then"), ("frame", "lone-answers"), ("frame", "lone-state"), ("calls", "never-four"),
    ("capi", "never-four"), ("text", "number_put"), ("underlying", "present-tests"), ("calls", "records-of"),
    ("calls", "replies-over"), ("calls", "report-calls"), ("calls", "request-answers"), ("calls", "request-reply"), ("calls", "request-store"),
    ("failures", "same_set"), ("calls", "store-over"), ("envelope", "with-record"), ("calls", "worked-currencies"), ("calls", "worked-reporters"),
    ("calls", "worked-tables"),
}
EXPORTS = {("capi", "record-export"): "record_exported", ("capi", "book-export"): "book_exported", ("capi", "file-export"): "file_exported"}


def spelled(crate, name):
    """A name that a crate declares, as it is spelled now."""
    if (crate, name) in EXPORTS:
        return EXPORTS[crate, name]
    return snake(name) + ("_lem" if (crate, name) in LEMMAS else "")


def snake(name):
    """The name in snake case: a dash and a capital behind a small letter part words; a type keeps its capitals."""
    if not re.fullmatch(r"[a-z][A-Za-z0-9_'-]*", name):
        return name
    name = name.replace("-", "_")
    return re.sub(r"(?<=[A-Za-z0-9])([A-Z])", lambda m: "_" + m.group(1).lower(), name)


def files(root, kinds):
    for crate in sorted(os.listdir(os.path.join(root, "crates"))):
        for kind in kinds:
            for folder, dirs, names in os.walk(os.path.join(root, "crates", crate, kind)):
                dirs.sort()
                for name in sorted(names):
                    yield crate, kind, os.path.join(folder, name)


def code_of(line):
    """A line without its comment."""
    return re.sub(r"(^|\s)--(\s.*)?$", r"\1", line)


def declared(root):
    """The names that specs/ and the lemma files declare, of each file; and the fields and constructors of all records and types."""
    by_file, members = {}, set()
    for crate, kind, path in files(root, ["specs", "proofs"]):
        if not path.endswith(".antt") or (kind == "proofs" and os.path.dirname(path) != os.path.join(root, "crates", crate, "proofs")):
            continue
        own, record = set(), None
        for line in open(path, encoding="utf-8"):
            line = code_of(line)
            if m := CASE.match(line):
                own.add(m.group(1))
                members.add(m.group(1))
            elif (m := DECLARED.match(line)) and not USE.match(line):
                indent, what, name = len(m.group(1)), m.group(2), m.group(3)
                if record is not None and indent <= record:
                    record = None
                if record is not None and what is None:
                    members.add(name)
                own.add(name)
                if what in ("record", "data"):
                    record = indent
        by_file[path] = own
    return by_file, members


def module_of(crate, path, root):
    rest = os.path.relpath(path, os.path.join(root, "crates", crate))[: -len(".antt")]
    return "Rattle." + crate + "." + rest.replace(os.sep, ".")


def respelled(text, names, fields):
    """A text with each of the names, and each field behind a dot or in a record's braces, as it is spelled now."""
    out, end = [], 0
    for m in TOKEN.finditer(text):
        word, new = m.group(0), None
        if m.start() and text[m.start() - 1] == "." and word in fields:
            new = snake(word)
        elif word in names:
            new = names[word]
        elif word in fields and re.match(r"\s*=\s", text[m.end():]):
            new = snake(word)
        if new is not None:
            out += [text[end:m.start()], new]
            end = m.end()
    return "".join(out) + text[end:]


def main(argv):
    root = argv[1]
    by_file, fields = declared(root)
    own, exported = {}, {}
    for crate, kind, path in files(root, ["specs", "proofs"]):
        if path in by_file:
            own[path] = {n: spelled(crate, n) for n in by_file[path]}
            exported[module_of(crate, path, root)] = own[path]
    everything = {(m, o): n for m, names in exported.items() for o, n in names.items()}
    if "--list" in argv:
        taken = {}
        for (m, o), n in everything.items():
            taken.setdefault(n, set()).add(o)
            if n != o:
                print(o, n)
        for n, olds in sorted(taken.items()):
            if len(olds) > 1:
                print("falls together:", n, sorted(olds))
        print("fields:", sorted(f for f in fields if snake(f) != f))
        return
    fields = {f for f in fields if snake(f) != f}

    def names_of(path, text):
        names = dict(own.get(path, {}))
        for module, items in re.findall(r"use (Rattle\.[^\s{;]+?)\.\{([^}]*)\}", text):
            for item in items.split(","):
                item = item.strip().split(" as ")
                if item[0] in exported.get(module, ()):
                    names[item[0]] = exported[module][item[0]]
                if item[-1] != item[0]:
                    names[item[-1]] = snake(item[-1])
        for module, alias in re.findall(r"use (Rattle\.[^\s{;]+?) as ([\w-]+)", text):
            names.update(exported.get(module, {}))
        for used in re.findall(r"open [^\n]*? use \{([^}]*)\}", text):
            names.update({n.strip(): snake(n.strip()) for n in used.split(",")})
        return {o: n for o, n in names.items() if o != n}

    texts = {}
    for crate, kind, path in files(root, ["specs", "proofs", "src", "must-fail"]):
        with open(path, encoding="utf-8") as f:
            texts[path] = (crate, kind, f.read())
    for path, (crate, kind, text) in texts.items():
        names = names_of(path, text)
        if kind == "must-fail":
            for target in re.findall(r"(?m)^file: (\S+)", text):
                target = os.path.join(root, "crates", crate, target)
                if target in texts:
                    names.update(names_of(target, texts[target][2]))
        new = respelled(text, names, fields)
        if new != text:
            with open(path, "w", encoding="utf-8") as f:
                f.write(new)


if __name__ == "__main__":
    main(sys.argv)

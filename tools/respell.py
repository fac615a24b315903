#!/usr/bin/env python3
"""Brings the repository's own names of definitions and lemmas to today's spelling, once, after the kit's port.py.

usage: python3 tools/respell.py [--dry]      at the top of the repository

Names with a dash get an underscore in its place, `line-end` to `line_end`; those that begin with a capital, as types and
facts do, go to camel case, `Walk-exactly` to `WalkExactly`, also where port.py gave them an underscore. Only names that a file of specs/ or proofs/ declares are
touched: names of the kit and names that the check makes keep theirs. Comments and texts keep their words.
It prints each name that would fall together with another one, and then writes nothing.
"""
import os
import re
import sys

STOPS = r"\s(){}.;,\"λ"
TOKEN = re.compile(rf"[^{STOPS}]+")
DECLARES = re.compile(rf"^(\s*)(pub )?(abbrev pub |abbrev |unfoldable pub |unfoldable |pub )?(data |record )?([^{STOPS}]+)(?=\s*[:({{])")
MADE = {"Answers.antt", "Invariants.antt", "Choices.antt"}


def files():
    for folder, dirs, names in os.walk("crates"):
        dirs[:] = sorted(d for d in dirs if d != "out")
        for name in sorted(names):
            if name.endswith((".antt", ".rt")):
                yield os.path.join(folder, name)


def comment_at(line, mark):
    """Where a comment of the line begins: a dash may stand inside a name, so two of them stand alone."""
    m = re.search(r"(^|\s)--(\s|$)" if mark == "--" else r"//", line)
    return m.start() if m else len(line)


def turns(name):
    return "-" in name.strip("-") or (name[0].isupper() and "_" in name and not name.isupper())


def declared(path):
    """The names to turn that a file declares, and those among them that are fields of a record."""
    names, fields, in_record = set(), set(), False
    goals = os.path.basename(path) in MADE
    for line in open(path, encoding="utf-8"):
        code = line[: comment_at(line, "--")]
        m = DECLARES.match(code)
        if code.strip() and not code.startswith((" ", "\t")):
            in_record = "record " in code and " where" in code
        if not m or not turns(m.group(5)):
            continue
        # what an answer file declares at its top is a goal, whose name the check made
        if goals and not m.group(1) and "pub " in (m.group(2) or "") + (m.group(3) or ""):
            continue
        names.add(m.group(5))
        if in_record and m.group(1):
            fields.add(m.group(5))
    return names, fields


def foreign(text):
    """The names that a file takes from the kit: they keep theirs.

    A line of a proof may begin with a lemma of the kit and a parenthesis, and then looks like a declaration.
    """
    names = set()
    for m in re.finditer(r"use ((?:\w|\.)+)\.\{([^}]*)\}", text):
        parts = m.group(1).split(".")
        if not (parts[0] == "Rattle" and len(parts) > 1 and os.path.isdir(os.path.join("crates", parts[1]))):
            names |= {n.strip().split(" ")[0] for n in m.group(2).split(",")}
    return names


def respelled(name):
    if not name[0].isupper():
        return name.replace("-", "_")
    return "".join((p[0].upper() + (p[1:].lower() if p.isupper() else p[1:])) for p in re.split("[-_]", name))


def turned(text, mark, names, fields):
    out = []
    for line in text.splitlines(keepends=True):
        end = comment_at(line, mark)
        code = line[:end]

        def turn(m):
            behind_dot = m.start() > 0 and code[m.start() - 1] == "."
            known = fields if behind_dot else names
            return respelled(m.group()) if m.group() in known else m.group()

        out.append(TOKEN.sub(turn, code) + line[end:])
    return "".join(out)


def main():
    names, fields = set(), set()
    for path in files():
        if path.endswith(".antt"):
            n, f = declared(path)
            names |= n
            fields |= f
    clash = 0
    new = {}
    for path in files():
        text = open(path, encoding="utf-8").read()
        mark = "--" if path.endswith(".antt") else "//"
        code = "".join(l[: comment_at(l, mark)] + "\n" for l in text.splitlines())
        own = names - foreign(text)
        there = set(TOKEN.findall(code))
        # a part of a path is no name of its own, and a function of src/ may have the name of what it answers
        alone = {m.group() for m in TOKEN.finditer(code) if "." not in (code[m.start() - 1 : m.start()], code[m.end() : m.end() + 1])}
        for name in there & own:
            other = respelled(name)
            if other in alone and not re.search(rf"\bfn {re.escape(other)}\b", code):
                print(f"{path}: {name} and {other} fall together")
                clash += 1
        new[path] = turned(text, mark, own, fields)
    both = {}
    for name in names:
        both.setdefault(respelled(name), []).append(name)
    for other, olds in both.items():
        if len(olds) > 1:
            print(f"{' and '.join(olds)} fall together")
            clash += 1
    print(f"respell: {len(names)} names, {clash} fall together")
    if clash or "--dry" in sys.argv:
        return 1 if clash else 0
    for path, text in new.items():
        if text != open(path, encoding="utf-8").read():
            with open(path, "w", encoding="utf-8") as f:
                f.write(text)
    return 0


if __name__ == "__main__":
    raise SystemExit(main())

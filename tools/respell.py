#!/usr/bin/env python3
"""Brings this repository's own names in specs/ and proofs/ to the language's spelling.

usage: python3 tools/respell.py [--list]     at the top of the repository; --list prints the renamings and writes nothing

A type, and a fact (what ends in Type 0), is in upper camel case. Everything else is in snake case. Names that the
toolchain makes (goals, steps, arms), and names of src/, keep their spelling. In comments and pages a name is
turned where it stands in backticks.
"""

import glob
import re
import sys

NAME = r"[A-Za-z_ℕℤ][\w'·]*(?:-[\w'·]+)*"
TOKEN = re.compile(NAME)
CHAIN = re.compile(NAME + r"(?:\." + NAME + r")*")
# where a chain begins so, it goes through the toolchain's records
MADE = {"c", "l", "g", "t", "w", "goal", "need"}


def sources():
    return sorted(glob.glob("crates/*/specs/**/*.antt", recursive=True) + glob.glob("crates/*/proofs/*.antt"))


def declared():
    """Each name declared in specs/ and in the lemma files of proofs/: its kind, and whether it is a field of a record."""
    kinds, fields = {}, set()
    for path in sources():
        inside = None
        lines = open(path, encoding="utf-8").read().split("\n")
        for i, line in enumerate(lines):
            text = line.split("-- ")[0]
            head = re.match(r"(?:abbrev |unfoldable )?(?:pub )?(record|data) (" + NAME + r")(?=[\s:]|$)", text)
            if head:
                inside = head.group(1)
                kinds.setdefault(head.group(2), set()).add("type")
                continue
            top = re.match(r"(?:abbrev |unfoldable )?(?:pub )?(" + NAME + r") :(.*)$", text)
            if top:
                inside = None
                fact = re.search(r"Type 0\s*$", top.group(2)) is not None
                kinds.setdefault(top.group(1), set()).add("fact" if fact else "value")
                continue
            if re.match(r"\S", text) and not text.startswith("--"):
                inside = None
                continue
            part = re.match(r"\s+(?:pub )?(" + NAME + r"(?: " + NAME + r")*) :(?:\s|$)", text)
            if part:
                for name in part.group(1).split():
                    fact = inside is None and re.search(r"Type 0\s*$", text) is not None
                    kinds.setdefault(name, set()).add("fact" if fact else "value")
                    if inside == "record":
                        fields.add(name)
    return kinds, fields


def camel(name):
    return "".join(part[:1].upper() + part[1:] for part in re.split(r"[-_]", name))


def respelled(name, kinds):
    if kinds <= {"type", "fact"}:
        return camel(name)
    return name.replace("-", "_")


def turn_code(text, table, fields):
    def chain(m):
        parts = m.group(0).split(".")
        made = parts[0] in MADE and len(parts) > 1
        return ".".join(p if made and p not in fields else table.get(p, p) for p in parts)

    return CHAIN.sub(chain, text)


def turn_ticked(text, table):
    return re.sub(r"`[^`\n]+`", lambda m: TOKEN.sub(lambda n: table.get(n.group(0), n.group(0)), m.group(0)), text)


def turn_file(path, table, fields):
    text = open(path, encoding="utf-8").read()
    mark = {"antt": "--", "rt": "//"}.get(path.rsplit(".", 1)[-1])
    out = []
    for line in text.split("\n"):
        if path.endswith(".md"):
            out.append(turn_ticked(line, table))
            continue
        at = re.search(r"(?:^|\s)" + re.escape(mark) + r"(?:\s|$)", line) if mark else None
        code, rest = (line[: at.start()], line[at.start():]) if at else (line, "")
        out.append(turn_code(code, table, fields) + turn_ticked(rest, table))
    turned = "\n".join(out)
    if turned != text:
        open(path, "w", encoding="utf-8").write(turned)


def main():
    kinds, fields = declared()
    table = {n: respelled(n, k) for n, k in kinds.items() if respelled(n, k) != n}
    made = {}
    for old, new in sorted(table.items()):
        made.setdefault(new, []).append(old)
    for new, olds in sorted(made.items()):
        if len(olds) > 1 or new in kinds:
            print("falls together:", new, olds, "declared" if new in kinds else "")
    if "--list" in sys.argv:
        for old, new in sorted(table.items()):
            print(old, "->", new, sorted(kinds[old]), "field" if old in fields else "")
        return
    paths = glob.glob("crates/*/specs/**/*.antt", recursive=True) + glob.glob("crates/*/proofs/**/*.antt", recursive=True)
    paths += glob.glob("crates/*/src/**/*.rt", recursive=True) + glob.glob("crates/*/must-fail/*.edit")
    paths += glob.glob("docs/*.md") + ["README.md"]
    for path in sorted(paths):
        turn_file(path, table, fields)


main()

#!/usr/bin/env python3
"""Brings the repository's own definitions and lemmas to the spelling of today's Rattle.

usage: python3 tools/respell.py        at the top of the repository, once, after port.py

Facts and types are in upper camel case (`Sees-in` is `SeesIn`), all other definitions, lemmas, record
fields and constructors in snake case (`leaf-place` is `leaf_place`). Only names that the repository's own
specs/ and proofs/ declare are turned: names that Rattle makes, as those of goals, and names of the library
keep their dashes. Comments are left as they are, but for what stands between backticks.
"""

import os
import re
import sys

WORD = r"[^\s(){}\[\],;.:λ→=`\"«»]+"
TOKEN = re.compile(WORD)
DECLARATION = re.compile(r"\s*(?:(?:abbrev|unfoldable|pub|data|record|ruleset|mutual)\s+)*(" + WORD + r")\s*(?:[({][^=]*?[)}]\s*)*:\s*(.*)$")
# A name that an import gives a definition; it is spelled as that definition is.
ALIAS = re.compile(r"(" + WORD + r") as (" + WORD + r")")
# Variables of joined branches: Rattle makes `w.count-is` of a variable `count`.
MADE = re.compile(r"(?<![\w-])w\.$")


def files(*endings):
    for folder, folders, names in os.walk("crates"):
        folders[:] = sorted(f for f in folders if f not in ("out", "target"))
        for name in sorted(names):
            if name.endswith(endings):
                yield os.path.join(folder, name)


def declared():
    found = set()
    for path in files(".antt"):
        with open(path, encoding="utf-8") as text:
            for line in text:
                if line.strip().startswith("--"):
                    continue
                m = DECLARATION.match(line.rstrip("\n"))
                if m and not re.match(r"(goal|need)\.", m.group(2)):
                    found.add(m.group(1))
    return found


def aliases():
    found = {}
    for path in files(".antt", ".rt"):
        with open(path, encoding="utf-8") as text:
            for line in text:
                if "use Rattle." in line:
                    for name, alias in ALIAS.findall(line):
                        if "-" in alias:
                            lower = name[0].islower()
                            found[alias] = respelled(alias[0].lower() + alias[1:] if lower else alias)
    return found


def respelled(name):
    if re.match(r"[A-Z]", name):
        return "".join(part[0].upper() + part[1:] for part in name.split("-"))
    name = re.sub(r"([a-z])([A-Z])", lambda m: m.group(1) + "_" + m.group(2).lower(), name)
    return name.replace("-", "_").replace("′", "'")


def turned(text, new):
    def one(m):
        word = m.group(0)
        if word not in new or (word.endswith("-is") and MADE.search(text[: m.start()])):
            return word
        return new[word]

    return TOKEN.sub(one, text)


def in_backticks(text, new):
    return re.sub(r"`[^`]*`", lambda m: turned(m.group(0), new), text)


def comment_start(line, rt):
    m = re.search(r"//" if rt else r"(^|\s)--(\s|$)", line)
    return m.start() if m else len(line)


def main():
    names = declared()
    new = {n: respelled(n) for n in names if respelled(n) != n}
    new.update(aliases())
    by_new = {}
    for n in names:
        by_new.setdefault(respelled(n), []).append(n)
    together = {k: v for k, v in by_new.items() if len(v) > 1}
    if together:
        sys.exit(f"names that fall together: {together}")
    changed = 0
    for path in files(".antt", ".rt", ".edit"):
        with open(path, encoding="utf-8") as text:
            before = text.read()
        after = ""
        for line in before.splitlines(keepends=True):
            at = comment_start(line, not path.endswith(".antt"))
            after += turned(line[:at], new) + in_backticks(line[at:], new)
        if after != before:
            changed += 1
            with open(path, "w", encoding="utf-8") as text:
                text.write(after)
    print(f"{len(new)} names in {changed} files")


main()

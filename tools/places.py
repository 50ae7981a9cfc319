#!/usr/bin/env python3
"""Lists the places in src/ that may read like an older language, a line to a place.

usage: python3 tools/places.py [--count] [POINT..]      at the top of the repository

Each point is a set of patterns over the code without its clauses and comments. A match is a place to look at,
not a fault: what stays has its reason in a comment beside it or in docs/DESIGN-PASS.md.
"""
import collections
import re
import subprocess
import sys

# What a line of code shows, by point: a name for the pattern, and the pattern.
PATTERNS = {
    1: [
        ("a flag in a struct or a variant", r"^\s*(pub(\(\w+\))? )?\w+: bool,$"),
        ("a bare number as the error", r"Result<.*, (u8|u16|u32|u64|usize)>"),
        ("a value with a count beside it as the result", r"-> \((Option<\w+>|u64|usize), usize\)"),
        ("a number for a kind or a cause", r"fn (number|place|kind_code)\(self\) -> u(8|64)"),
        ("a choice by a remainder", r"% 2 == 0"),
        ("a choice by ranges of numbers", r"^\s*\d+\.\.=\d+ =>"),
        ("a value that stands for none", r"^\s*(None => 0|return (0|first)|_ => 0|None => 0),?;?$"),
    ],
    3: [
        ("a while", r"^\s*while "),
        ("an index over a range", r"for \w+ in .*[\w\])]+\.\.[\w(]"),
        ("an index by enumerate", r"\.enumerate\(\)"),
        ("a count by hand", r"\w+ \+= 1;"),
    ],
    4: [
        ("a comparison of fields by hand", r"^\s*(&& )?(self|a|range|x)\.\w+ == (other|b|y)\.\w+"),
        ("a sameness by hand", r"fn (is_)?same\("),
        ("an Option or a Result turned by hand", r"^\s*(Ok\(\w+\) => Ok\(|Some\(\w+\) => Ok\(|None => Err\(|Err\(_?\w*\) => Err\(|Some\(\w+\) => Some\(Ok|None => Ok\(None|Some\(_\) => Err|None => Ok\(\(\)\))"),
        ("a cast", r" as (u8|u16|u32|u64|usize)\b"),
        ("printing by hand", r"line\.(put|hex)\(|self\.(push|hex)\("),
        ("a filler for records", r"const (UNUSED|NOWHERE)"),
    ],
    6: [
        ("a length beside a buffer in a struct", r"^\s*(pub(\(\w+\))? )?(used|count|attached|len|shown): (usize|u64),$"),
        ("a length beside a slice among parameters", r"\b(used|count): usize\b(?!,$)"),
        ("a length beside a slice among parameters", r"^    (used|count): usize,$"),
        ("a search by halving", r"\(high - low\) / 2"),
        ("an array by number", r"regions: \[Option<Region>; 64\]"),
        ("parallel arrays", r"masks: \[u8; 256\],"),
        ("an array of flags", r"-> \[bool; 64\]"),
    ],
    7: [
        ("a function pointer", r"\bfn\(|: fn "),
        ("a dyn value", r"\bdyn "),
        ("a step by number", r"match (step|state|phase)\b"),
    ],
}


def files():
    """The source files of all crates."""
    out = subprocess.run(["git", "ls-files", "--cached", "--others", "--exclude-standard", "crates/*/src/*.rt"], text=True, capture_output=True, check=True).stdout
    return sorted(set(out.split()))


def is_code(line):
    """Whether the line is code: no comment, no clause, no ghost line."""
    text = line.strip()
    return not re.match(r"//|ghost |requires |ensures |use |#\[", text)


def places(point):
    """The places of a point: file, line number, what it is, text."""
    for path in files():
        for number, line in enumerate(open(path, encoding="utf-8").read().split("\n"), 1):
            if is_code(line):
                for name, pattern in PATTERNS[point]:
                    if re.search(pattern, line):
                        yield path, number, name, line.strip()
                        break


def twins():
    """Names of free functions, types and constants that more than one module of one layer or another declares, tests left out."""
    seen = collections.defaultdict(list)
    for path in files():
        if "_tests/" in path or path.endswith("tests.rt"):
            continue
        for number, line in enumerate(open(path, encoding="utf-8").read().split("\n"), 1):
            m = re.match(r"(?:pub(?:\(\w+\))? )?(?:fn|struct|enum|trait|const) (\w+)", line)
            if m:
                seen[m.group(1)].append((path, number, line.strip()))
            m = re.match(r"(?:pub )?const (\w+): u64 = (1 << 40|0x100_0000_0000);", line)
            if m:
                seen["2^40"].append((path, number, line.strip()))
    for name, where in sorted(seen.items()):
        if len(where) > 1:
            for path, number, line in where:
                yield path, number, f"twin by name: {name}", line


def facts():
    """Facts that three or more functions of one crate require, and pairs of parameters that three or more take, a line to a fact or a pair."""
    for crate in sorted({p.split("/")[1] for p in files() if "_tests/" not in p}):
        required, together = collections.defaultdict(list), collections.defaultdict(list)
        for path in (p for p in files() if p.startswith(f"crates/{crate}/")):
            text = open(path, encoding="utf-8").read()
            for number, line in enumerate(text.split("\n"), 1):
                m = re.match(r"\s*requires (?:\w+ )?\{ (.*) \}$", line)
                if m:
                    required[m.group(1)].append((path, number))
            for m in re.finditer(r"fn (\w+)(?:<[^(]*>)?\(([^)]*)\)", text):
                names = [p.strip() for p in m.group(2).split(",") if ":" in p]
                number = text[: m.start()].count("\n") + 1
                for i, a in enumerate(names):
                    for b in names[i + 1 :]:
                        together[(a, b)].append((path, number))
        for name, groups in (("a fact that so many functions require", required), ("parameters that so many functions take together", together)):
            for what, where in groups.items():
                if len(where) > 2:
                    text = what if isinstance(what, str) else ", ".join(what)
                    yield *where[0], name, f"{len(where)} times: {text}"


def proofs():
    """Answers that are no more than a search."""
    out = subprocess.run(["git", "ls-files", "crates/*/proofs/*Answers.antt"], text=True, capture_output=True, check=True).stdout
    for path in sorted(out.split()):
        for number, line in enumerate(open(path, encoding="utf-8").read().split("\n"), 1):
            if re.match(r"\S+( \w+)* = search rules$", line):
                yield path, number, "an answer that only searches", line


def main():
    count = "--count" in sys.argv
    points = [int(a) for a in sys.argv[1:] if a.isdigit()] or range(1, 9)
    for point in points:
        found = list({2: twins, 5: facts, 8: proofs}.get(point, lambda: places(point))())
        print(f"point {point}: {len(found)} places")
        kinds = collections.Counter(name for _, _, name, _ in found)
        for name, n in sorted(kinds.items()):
            print(f"    {n:3}  {name}")
        if not count:
            for path, number, name, text in found:
                print(f"  {path}:{number}: {name}: {text}")


main()

#!/usr/bin/env python3
"""Brings the repository's own definitions and lemmas to today's spelling: words in snake case, types in camel case, a prime as an apostrophe.

usage: python3 tools/respell.py [--list]      at the top of the repository

Names are those that a file of specs/ or proofs/ declares, goals of the checker aside. A name that starts with a capital is a type or a theorem
and goes to camel case (Least-such: LeastSuch); in any other a dash becomes an underscore (with-point: with_point), and _lem is added where a
function of Rust code has that name. Names of Rust code, strings and comments stay. Stops, and changes nothing, where two names would fall together.
"""

import os
import re
import sys

SEP = r"\s(){}\[\].,;\"«»"
TOKEN = re.compile(rf"[^{SEP}]+")
DECLARED = re.compile(r"^\s*(?:\|\s*)?((?:pub |abbrev |unfoldable |data |record |mutual )*)([^" + SEP + r"]+)((?:\s*[({][^:]*:[^)}]*[)}])*)\s*:\s(.*)$")
BLOCK = re.compile(r"^\s*(?:pub )?(?:data|record)\s+([^" + SEP + r"]+)")


def files(root):
    for folder, dirs, names in os.walk(os.path.join(root, "crates")):
        dirs[:] = sorted(d for d in dirs if d not in ("out", ".git"))
        for name in sorted(names):
            if name.endswith((".rt", ".antt")):
                yield os.path.join(folder, name)


def read(path):
    with open(path, encoding="utf-8") as f:
        return f.read()


def code_of(line, path):
    """The line without its comment."""
    return re.split(r"(?:^|\s)--(?:\s|$)" if path.endswith(".antt") else r"//", line, maxsplit=1)[0]


def declared(path):
    for line in read(path).splitlines():
        code = code_of(line, path)
        m = DECLARED.match(code)
        if m and not m[4].startswith(("goal.", "need.")):
            yield m[2]
        m = BLOCK.match(code)
        if m:
            yield m[1]


def turned(name):
    new = name.replace("′", "'")
    if "-" not in new or not new[0].isalpha():
        return new
    if new[0].isupper():
        parts = new.split("-")
        return parts[0] + "".join(p[:1].upper() + p[1:] for p in parts[1:])
    return new.replace("-", "_")


def respell(text, path, to):
    out = []
    for line in text.split("\n"):
        code = code_of(line, path)
        rest = line[len(code):]
        pieces = re.split(r'("(?:[^"\\]|\\.)*")', code) if path.endswith(".rt") else [code]
        pieces = [p if p.startswith('"') else TOKEN.sub(lambda m: to.get(m[0], m[0]), p) for p in pieces]
        out.append("".join(pieces) + rest)
    return "\n".join(out)


def main():
    root = os.getcwd()
    paths = list(files(root))
    own = set()
    for p in paths:
        if p.endswith(".antt"):
            own.update(declared(p))
    functions = {n for p in paths if p.endswith(".rt") for n in re.findall(r"\bfn ([a-z_0-9]+)", read(p))}
    to = {n: turned(n) + ("_lem" if turned(n) in functions else "") for n in own if turned(n) != n}
    met = {}
    for p in paths:
        words = set()
        for line in read(p).splitlines():
            words.update(TOKEN.findall(code_of(line, p)))
        for old, new in to.items():
            if old in words and new in words:
                met.setdefault((old, new), []).append(os.path.relpath(p, root))
    libraries = [(os.path.relpath(p, root), n) for p in paths for line in re.findall(r"use (?:Rattle\.std|borrow|denote|native|mathlib|lib|Prim|logic)\.[^{\n]*\{([^}]*)\}", read(p)) for n in re.split(r"[,\s]+", line) if n in to]
    new_names = {}
    for old, new in to.items():
        new_names.setdefault(new, []).append(old)
    double = {new: olds for new, olds in new_names.items() if len(olds) > 1 or new in own}
    if "--list" in sys.argv:
        for old in sorted(to):
            print(old, to[old])
    for (old, new), where in sorted(met.items()):
        print(f"fall together: {old} and {new} in {', '.join(where)}", file=sys.stderr)
    for where, n in libraries:
        print(f"of a library: {n} in {where}", file=sys.stderr)
    for new, olds in sorted(double.items()):
        print(f"two names for one: {', '.join(olds)} as {new}", file=sys.stderr)
    if met or libraries or double:
        raise SystemExit(1)
    if "--list" in sys.argv:
        return
    for p in paths:
        text = read(p)
        new = respell(text, p, to)
        if new != text:
            with open(p, "w", encoding="utf-8") as f:
                f.write(new)


main()

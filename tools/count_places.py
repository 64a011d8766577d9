#!/usr/bin/env python3
"""Lists the places in crates/*/src that the design pass looks at, point by point, and counts them.
Run at the top of the repository: python3 tools/count_places.py [POINT..]. It reads text and knows nothing of types: a line is a place to look at."""
import collections
import glob
import re
import subprocess
import sys

FILES = sorted(glob.glob("crates/*/src/**/*.rt", recursive=True))


def lines():
    for name in FILES:
        for number, line in enumerate(open(name, encoding="utf-8"), 1):
            text = line.strip()
            if text and not text.startswith(("//", "ghost use", "use ", "mod ", "pub use")):
                yield name, number, text


def grep(pattern, clauses=False):
    found = []
    for name, number, text in lines():
        if not clauses and re.match(r"(ensures|requires|ghost)\b", text):
            continue
        if re.search(pattern, text):
            found.append(f"{name}:{number}: {text}")
    return found


def functions():
    """Each function: file, line, name, parameters, clauses, body."""
    for name in FILES:
        rows = open(name, encoding="utf-8").read().split("\n")
        i = 0
        while i < len(rows):
            head = re.match(r"^( *)(pub(\([a-z]+\))? )?(const )?(final )?fn (\w+)", rows[i])
            if not head or rows[i].strip().endswith(";"):
                i += 1
                continue
            indent, start = head.group(1), i
            while i + 1 < len(rows) and rows[i] != indent + "}" and not rows[i].endswith(";"):
                i += 1
            text = rows[start : i + 1]
            clauses = [r.strip() for r in text if re.match(r"\s*(ensures|requires)\b", r)]
            plain = [r for r in text if r.strip() not in clauses and not r.strip().startswith("//")]
            whole = " ".join(plain)
            cut = whole.find("{")
            params = re.findall(r"(\w+): ([^,()]+|\([^)]*\))(?=[,)])", whole[: cut if cut >= 0 else None])
            yield name, start + 1, head.group(6), [f"{a}: {b.strip()}" for a, b in params], clauses, whole
            i += 1


def one():
    enums = [f"{n}:{k}: {t}" for n, k, t in lines() if re.match(r"(pub(\(crate\))? )?enum ", t)]
    flags = grep(r"^(pub(\(crate\))? )?\w+: bool,$")
    numbers = grep(r"=> \(?[0-9]+[,)]")
    return {"enums, each to be read": enums, "flags among the fields of a struct": flags, "arms that give a number": numbers}


WORDS = set("fn let mut if else match for in while loop return pub impl struct enum const self Self ref move break as use where true false Some None Ok Err".split())


def shape(text):
    out = []
    for token in re.findall(r"b?\"[^\"]*\"|b?'[^']*'|\w+|[^\w\s]", text):
        if token in WORDS:
            out.append(token)
        elif re.match(r"b?[\"']|\d", token):
            out.append("0")
        elif re.match(r"\w", token):
            out.append("x")
        else:
            out.append(token)
    return " ".join(out)


def two():
    groups = collections.defaultdict(list)
    for name, number, fn, _, _, whole in functions():
        key = re.sub(r"\bx (, )?", "x ", re.sub(r"(0 , )+", "0 , ", shape(whole)))
        if key.count(" ") >= 16:
            groups[key].append(f"{name}:{number}: {fn}")
    twins = [" ~ ".join(g) for g in groups.values() if len(g) > 1]
    return {"functions of one shape (alike but for names, strings and numbers)": twins}


def three():
    return {
        "loops": grep(r"^('\w+: )?(for|while|loop)\b|= loop \{"),
        "of these or in them, an index or a count by hand": grep(r"\bwhile\b|\bloop \{|[+-]= 1;|for \w+ in [^{]*\.\.|for \((i|\w*index), .*enumerate\(\)"),
    }


def four():
    return {
        "functions that compare, copy, convert or print": grep(r"fn \w*(same|less|bytes|number|key|kind|count_of|asked|value|put_|tell_|report|sentence|shown|_of|of|hex|from|told|yes_or|one_or)\w*\s*[<(]"),
    }


def five():
    facts, parameters = collections.defaultdict(list), collections.defaultdict(list)
    for name, number, fn, params, clauses, _ in functions():
        where = f"{name}:{number}: {fn}"
        seen = set()
        for clause in clauses:
            inner = clause[clause.index("{") + 1 : clause.rindex("}")].strip()
            parts = [p.strip() for p in re.split(r" → (?![^(]*\))", inner)]
            for part in parts:
                part = re.sub(r"\.(old|new|now|entry)\b", "", part)
                part = re.sub(r"\bself\b|\bresult\b", "_", part)
                if len(part) > 12 and part not in seen:
                    seen.add(part)
                    facts[part].append(where)
        if len(params) > 1:
            for i in range(len(params)):
                for j in range(i + 1, len(params)):
                    parameters[f"{params[i]} + {params[j]}"].append(where)
    return {
        "facts in the contracts of three or more functions": [f"{len(w)}x  {f}  ({w[0]} ..)" for f, w in sorted(facts.items(), key=lambda p: -len(p[1])) if len(w) >= 3],
        "two parameters together in three or more functions": [f"{len(w)}x  {f}  ({w[0]} ..)" for f, w in sorted(parameters.items(), key=lambda p: -len(p[1])) if len(w) >= 3],
    }


def six():
    return {
        "fixed arrays and counts beside memory": grep(r"^(pub(\(crate\))? )?\w+: (\[[^\]]*; ?\w+\]|&'\w+ mut \[\w+\]|usize),$|\[[A-Za-z0-9_:]+; \w+\]"),
        "bytes where text is meant": grep(r"static \[u8\]|: &\[u8\] = |\bb\"[A-Za-z ,.;:'`!]{4,}"),
    }


def seven():
    return {"switches on a step or a call, pointers and dyn": grep(r"\bdyn\b|: fn\(|match (self\.at|call|which|kind)\b")}


def eight():
    count = lambda pattern: sum(len(open(f, encoding="utf-8").read().split("\n")) - 1 for f in glob.glob(pattern, recursive=True))
    rows = []
    for crate in sorted(glob.glob("crates/*")):
        answers = glob.glob(crate + "/proofs/**/Answers.antt", recursive=True)
        goals = sum(len(re.findall(r"^pub [\w-]+ : goal", open(f, encoding="utf-8").read(), re.M)) for f in answers)
        rows.append(f"{crate[7:]}: {count(crate + '/proofs/**/*.antt')} lines of proofs, {len(answers)} files of answers, {goals} answers")
    return {"proofs": rows}


POINTS = {"1": one, "2": two, "3": three, "4": four, "5": five, "6": six, "7": seven, "8": eight}


def main():
    for point in sys.argv[1:] or POINTS:
        for what, found in POINTS[point]().items():
            print(f"{point}. {what}: {len(found)}")
            for row in found:
                print(f"    {row}")


main()

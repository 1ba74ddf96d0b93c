#!/usr/bin/env python3
"""Counts the places that docs/DESIGN-PASS.md speaks of, point by point, in crates/*/src (point 8: in crates/*/proofs).

Usage: python3 tools/design_census.py [-v]      (-v lists each place)
A place that is found is a place to look at, no fault yet: the page says what became of each.
"""
import collections
import glob
import re
import sys

LINE_PATTERNS = {
    "1 own enums": r"^ *(pub(\(crate\))? )?enum ",
    "1 kinds, levels, layers, reasons as numbers": r"\b_?(kind|level|layer|number): u(8|16)\b|\bmatch \*kind\b|refuse\(\d|^ *(number|layer): \d+,$|-> i64|\[\d, |^        \d,$|&\[\d\]",
    "1 a value that stands for none": r"const (NO_START|NONE|UNSENT|BLANK)\b|with no controllers is none",
    "3 loops": r"^ *('\w+: )?(for|while) .*\{$",
    "4 conversions by hand": r"\bas u(8|16|32|64)\b|\bas (usize|i64|char)\b|/ 256|% 256|256 \*",
    "4 equality by hand": r"if let \w+::\w+ = ",
    "4 printing and parsing by hand": r"fn print_\w+|fn \w+_named|fn (call|numbered)\(",
    "4 blank values by hand": r"const (BLANK|BLANK_TASK|NONE|UNSENT)\b",
    "6 arrays": r": (&mut )?\[[^\]]+; (\d+|N)\]|\[[^\]]+; \d+\];|vec!\[",
    "6 lengths beside": r"^ *(pub(\(crate\))? )?(count|len): (u8|usize|Count),",
    "7 switches on a kind": r"match (deed|self|policy|job\.bench) \{$",
}


def sources():
    for path in sorted(glob.glob("crates/*/src/**/*.rt", recursive=True)):
        with open(path, encoding="utf-8") as handle:
            yield path, handle.read()


def by_line(found):
    for path, text in sources():
        for number, line in enumerate(text.split("\n"), 1):
            if line.lstrip().startswith(("//", "ghost ")) and "is none" not in line:
                continue
            for point, pattern in LINE_PATTERNS.items():
                if re.search(pattern, line) and not (point == "3 loops" and re.search(r"\bimpl\b", line)):
                    found[point].append(f"{path}:{number}: {line.strip()}")


def functions(text):
    """Each function with its parameters, its clauses and its body."""
    heads = list(re.finditer(r"^ *(?:pub(?:\(crate\))? )?(?:extern \"C\" )?fn (\w+)(<[^{;]*?>)?\(([^)]*)\)", text, re.M))
    for head, after in zip(heads, heads[1:] + [None]):
        part = text[head.end(): after.start() if after else len(text)]
        yield head.group(1), re.sub(r"\s+", " ", head.group(3)), part


def by_function(found):
    clauses, pairs, shapes = (collections.defaultdict(list) for _ in range(3))
    for path, text in sources():
        crate = path.split("/")[1]
        for name, parameters, part in functions(text):
            place = f"{path.split('/', 2)[2]}:{name}"
            names = [p.split(":")[0].replace("mut ", "").strip(" _") for p in re.split(r",(?![^<]*>)", parameters) if ":" in p]
            for i, one in enumerate(names):
                for other in names[i + 1:]:
                    pairs[crate, *sorted((one, other))].append(place)
            for clause in re.findall(r"^ *((?:requires|ensures)) ?\w* ?\{ (.*) \}", part, re.M):
                clauses[crate, clause[0], re.sub(r"\b(result|self\.(old|new|now))\b", "_", clause[1])].append(place)
            body = re.sub(r"^ *(requires|ensures).*$", "", part, flags=re.M)
            body = body[body.find("{"):]
            shape = re.sub(r"\w+", "w", re.sub(r"//.*", "", body))
            shape = re.sub(r"\s+", " ", shape).split("} }")[0]
            if len(shape) > 40:
                shapes[crate, shape].append(place)
    found["2 functions of one shape"] = [f"{k[0]}: {', '.join(v)}" for k, v in shapes.items() if len(v) > 1]
    found["5 clauses of three or more functions"] = [f"{k}: {', '.join(v)}" for k, v in clauses.items() if len(v) > 2]
    found["5 parameters that travel together in three or more functions"] = [
        f"{k}: {', '.join(v)}" for k, v in pairs.items() if len(v) > 2 and "rt" not in k
    ]


def proofs(found):
    for path in sorted(glob.glob("crates/*/proofs/**/*.antt", recursive=True)):
        with open(path, encoding="utf-8") as handle:
            text = handle.read()
        kind = "answer files" if path.endswith("Answers.antt") else "invariant files" if path.endswith("Invariants.antt") else "lemma files"
        found[f"8 {kind}"].append(f"{path}: {text.count(chr(10))} lines")


def main():
    found = collections.defaultdict(list)
    by_line(found)
    by_function(found)
    proofs(found)
    for point in sorted(found):
        print(f"{len(found[point]):4}  {point}")
        if "-v" in sys.argv:
            for place in found[point]:
                print(f"        {place}")


main()

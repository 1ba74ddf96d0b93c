#!/usr/bin/env python3
"""Brings the repository's own definitions, lemmas and fields to snake case: `pastEnd` and `next-hop` become `past_end` and `next_hop`.

usage: python3 tools/respell_names.py [--check]   (at the top of the repository, once, right after the toolchain's port script)

It goes by text, over specs/, proofs/ and the ghost lines of src/. A name turns if a file of specs/ or proofs/ declares it and it
has a dash or an inner capital. What the toolchain names stays: goals, the labels right behind `c.`, `l.` and `goal.`, and paths.
Types and modules are in camel case already. The script refuses to write where two names would fall together.
"""
import collections
import glob
import re
import sys

CRATES = "slots records digits tasks frames sheet policies planner benches machine control runs printout quotation".split()
OWN = re.compile(r"Rattle\.(?:%s)\.(?:specs|proofs)\.(?!declared)" % "|".join(CRATES))
WORD = re.compile(r"[^\s(){}.;,@\"«»\[\]]+")
ITEM = re.compile(r"^[ \t]*(?:pub )?use ([^;{\n]+?)\.\{([^}]*)\}", re.M)
SIGNED = re.compile(r"^[ \t]*(?:\| )?(?:abbrev )?(?:pub )?([^\s(){}.;,@λ|]+)(?:[ \t]+[({][^\n]*?[)}])*(?: : |\n[ \t]+: )(\S*)", re.M)
COMMENT = re.compile(r"--[^\n]*")
# Spellings that would fall together with another name of the repository.
OTHER = {
    "all-idle": "each_idle",
    "in-range": "in_range_holds",
    "last-period": "last_period_is",
    "places-after": "places_after_events",
    "when-loaded": "when_loaded_is",
}
# Names of values inside a proof.
LOCAL = "as-a as-b at-k at-l at-q at-r at-t at-u b-in before-k before-l begin-is end-command in-r in-s kept-name on-a on-b other-is s-least t-least".split()
# Names that the port script had brought to a spelling which a definition takes now.
MADE_ROOM = {
    "crates/benches/proofs/Bytes.antt": {"shown_by": "shown_after"},
    "crates/slots/proofs/Jumping.antt": {"past_end": "past_end_clear"},
}


def is_old(word):
    return bool(re.match(r"[a-z]", word)) and ("-" in word or re.match(r"[a-z0-9_']*[A-Z]", word))


def snake(word):
    if word in OTHER:
        return OTHER[word]
    word = re.sub(r"([a-z0-9])([A-Z])", lambda m: m.group(1) + "_" + m.group(2).lower(), word)
    return word.replace("-", "_")


def blank(match):
    return " " * len(match.group(0))


def declared(files):
    """The names that the files declare, the goals that they answer, and the names that libraries give."""
    names, goals, library = set(), set(), set()
    for path, text in files.items():
        if not path.endswith(".antt"):
            continue
        bare = COMMENT.sub(blank, text)
        for m in ITEM.finditer(bare):
            for item in m.group(2).split(","):
                parts = item.strip().split(" as ")
                if not OWN.match(m.group(1)):
                    library.add(parts[0])
                if len(parts) == 2 and is_old(parts[1]):
                    names.add(parts[1])
        for m in SIGNED.finditer(ITEM.sub(blank, bare)):
            name, of = m.groups()
            if of.startswith("goal."):
                goals.add(name)
            elif is_old(name):
                names.add(name)
    return names, goals, library


def turned(text, names, kept, counts, comments):
    def one(m):
        word = m.group(0)
        if word not in names or word in kept:
            return word
        before = text[max(0, m.start() - 200) : m.start()]
        if re.search(r"(?:^|[^\w.'-])(?:c|l|goal|Goals|Given)\.$", before):
            return word
        if re.search(r"\.proofs(?:\.[^\s{};]*)?\.$", before):
            return word
        counts[word] += 1
        return snake(word)

    # In a comment only a name with an inner capital is a name for sure.
    result, last = [], 0
    spans = [(m.start(), m.end()) for m in comments.finditer(text)]
    inside = lambda i: any(a <= i < b for a, b in spans)
    for m in WORD.finditer(text):
        word = m.group(0)
        new = word
        if not inside(m.start()) or re.match(r"[a-z0-9_']*[A-Z]", word):
            new = one(m)
        result.append(text[last : m.start()] + new)
        last = m.end()
    result.append(text[last:])
    return "".join(result)


def main():
    check = "--check" in sys.argv
    files = {}
    for crate in CRATES:
        for path in glob.glob(f"crates/{crate}/**/*", recursive=True):
            if re.search(r"/(?:specs|proofs)/.*\.antt$|/src/.*\.rt$|/must-fail/.*\.edit$", path):
                files[path] = open(path, encoding="utf-8").read()
    before = dict(files)
    for path, room in MADE_ROOM.items():
        for old, other in room.items():
            files[path] = re.sub(rf"(?<![\w'.-]){old}(?![\w'-])", other, files[path])
    names, goals, library = declared(files)
    names.update(LOCAL)
    clash = {n for n in names & (goals | library)}
    new = collections.defaultdict(set)
    for n in names - clash:
        new[snake(n)].add(n)
    wrong = {s: old for s, old in new.items() if len(old) > 1}
    used = collections.defaultdict(set)
    for path, text in files.items():
        bare = (COMMENT if path.endswith(".antt") else re.compile(r"//[^\n]*")).sub(blank, text)
        for m in WORD.finditer(bare):
            used[path].add(m.group(0))
    meets = collections.defaultdict(set)
    for path, words in used.items():
        for n in names - clash:
            if n in words and snake(n) in words:
                meets[n].add(path)
    counts = collections.Counter()
    out = {}
    for path, text in files.items():
        comments = COMMENT if path.endswith(".antt") else re.compile(r"//[^\n]*")
        out[path] = turned(text, names, clash, counts, comments)
    print(f"{len(names - clash)} names, {sum(counts.values())} places")
    for n in sorted(clash):
        print("stays, since a library or a goal has the spelling:", n)
    for s, old in sorted(wrong.items()):
        print("fall together:", s, "from", ", ".join(sorted(old)))
    for n, paths in sorted(meets.items()):
        print("meets a name in scope:", n, "->", snake(n), "in", ", ".join(sorted(paths)))
    if check:
        return
    if wrong:
        sys.exit("nothing written")
    for path, text in out.items():
        if text != before[path]:
            open(path, "w", encoding="utf-8").write(text)


main()

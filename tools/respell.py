#!/usr/bin/env python3
"""Spells this repository's own names as today's Rattle does: words in snake case, types in upper camel case.

usage: respell.py            at the top of the repository, once, after the kit's port.py

It goes over specs/, proofs/ and the clauses of src/. What it renames:
- a definition, lemma, field or case that a file of specs/ or proofs/ declares, and a name that a proof binds;
- a label of a clause or a field of the source, where a proof still has it with dashes;
- a crate that has the name of a library of the kit.
Functions and values of src/, text in quotes and prose stay as they are.
It prints the names that would fall together with another name of one file.
"""

import collections
import glob
import os
import re
import sys

# A crate whose name a library of the kit has, and its name here.
CRATES = {"check": "single_check"}

# A name that would meet another one: the file begins so, the old name, the new name.
SET_APART = [
    ("crates/track/", "points-of", "points_are"),
    ("crates/track/", "neighbours-of", "neighbours_of_lem"),
    ("crates/planner/proofs/Asked", "all-rows", "all_rows_lem"),
    ("crates/frames/proofs/Again", "digit_value", "digit_value_lem"),
    ("crates/grouping/", "one-train", "one_train_lem"),
    ("crates/table/", "one-train", "one_train_lem"),
]

TOKEN = re.compile(r'[^\s(){}\[\].;,@"«»|]+')
DECLARED = re.compile(r"^(\s*)((?:pub|abbrev|unfoldable|data|record)\s+)*([^\s(){}:;,.@\"=λ|]+)((?:\s+[({][^=]*[)}])*)\s*:\s")
CASE = re.compile(r"^\s*\|?\s*(?:pub\s+)?([^\s(){}:;,.@\"=λ|]+)\s*:\s")
BOUND = re.compile(r"\blet\s+([^\s(){}:;,.@\"=|]+)\s*[:=]|λ\s+([^.λ]*)\.|\(([^():=]*)\s:\s")
LABEL = re.compile(r"\b(?:requires\*?|ensures\*?|ghost)\s+(\w+)\s*[{:=]|\b(?:pub(?:\([a-z]+\))?\s+)?(\w+):(?!:)|\bfn\s+(\w+)|\blet\s+(?:mut\s+)?(\w+)|'(\w+):|\bfor\s+(\w+)\b")
OWNED = ("specs", "proofs")


def antt_files():
    for top in OWNED:
        yield from sorted(glob.glob(f"crates/*/{top}/**/*.antt", recursive=True))


def answers(path):
    return os.path.basename(path) in ("Answers.antt", "Invariants.antt", "Choices.antt", "Proof.antt") and "/proofs/" in path


def bare(line):
    return re.sub(r"--(?:\s.*)?$", "", line)


def snake(name):
    name = re.sub(r"(?<=[a-z0-9])([A-Z])", lambda m: "_" + m[1].lower(), name)
    return name.replace("-", "_")


def camel(name):
    return "".join(part[:1].upper() + part[1:] for part in name.split("-"))


def imported(text):
    names = set()
    for m in re.finditer(r"\buse\s+(\S+?)\.?\{([^}]*)\}", text):
        head = m[1]
        if head.startswith("Rattle.") and head.split(".")[1] in MINE:
            continue
        names.update(n.strip() for n in m[2].split(","))
    return names


def declared_names():
    """Each name that the texts declare: whether it is a type, and the files."""
    found = collections.defaultdict(lambda: [False, set()])
    for path in antt_files():
        lines = open(path).read().split("\n")
        for i, line in enumerate(lines):
            text = bare(line)
            m = DECLARED.match(text)
            if not m or m[3] in ("let", "use", "module", "open", "in", "elim", "where"):
                continue
            name = m[3]
            if answers(path) and re.search(r":\s+(goal|given|need)\.", text):
                continue
            whole = text
            for more in lines[i + 1:i + 8]:
                if re.match(r"^\s*(→|\()", more) and not re.match(r"^\s*\S+.*=\s", more):
                    whole += " " + bare(more)
                else:
                    break
            words = (m[2] or "").split() + text.split(":")[0].split()
            is_type = "record" in words or "data" in words or bool(re.search(r"(^|\s|→)Type(\s0)?\s*(where)?\s*$", whole.strip()))
            found[name][0] = found[name][0] or (is_type and name[:1].isupper())
            found[name][1].add(path)
    return found


def bound_names(path, text):
    names = set()
    for line in text.split("\n"):
        line = bare(line)
        for m in BOUND.finditer(line):
            if m[1]:
                names.add(m[1])
            for part in (m[2], m[3]):
                if part:
                    names.update(TOKEN.findall(re.sub(r"[{(][^)}]*$|:.*", "", part)))
        # what the left side of an equation binds
        m = re.match(r"^\s*([^\s=:]+(?:\s+[^=:]+?)?)\s=\s", line)
        if m and " λ" not in m[1]:
            names.update(TOKEN.findall(m[1]))
    return {n for n in names if "-" in n and re.fullmatch(r"[A-Za-z_'0-9₀-₉-]+", n) and n[0].isalpha()}


def source_names():
    names = set()
    for path in glob.glob("crates/*/src/**/*.rt", recursive=True):
        for m in LABEL.finditer(open(path).read()):
            names.update(n for n in m.groups() if n and "_" in n.strip("_"))
    return names


def turn(text, table, comments):
    out = []
    for line in text.split("\n"):
        m = re.search(r"(^|\s)(--|//)(\s|$)", line)
        at = m.start() if m else len(line)
        code, note = line[:at], line[at:]
        pieces, last = [], 0
        for quote in re.finditer(r'"[^"]*"', code):
            pieces.append(TOKEN.sub(lambda t: table.get(t[0], t[0]), code[last:quote.start()]))
            pieces.append(quote[0])
            last = quote.end()
        pieces.append(TOKEN.sub(lambda t: table.get(t[0], t[0]), code[last:]))
        if comments:
            note = re.sub(r"[\w-]+", lambda t: table[t[0]] if t[0] in table and re.search(r"[a-z][A-Z]", t[0]) else t[0], note)
        out.append("".join(pieces) + note)
    return "\n".join(out)


def main():
    global MINE
    MINE = set(os.listdir("crates"))
    declared = declared_names()
    source = source_names()
    dashed_source = {n.replace("_", "-"): n for n in source}
    table = {}
    for name, (is_type, _) in declared.items():
        new = camel(name) if is_type else snake(name) if not (name[:1].isupper() and "-" not in name) else name
        if new != name:
            table[name] = new
    for dashed, name in dashed_source.items():
        table.setdefault(dashed, name)
    # what would fall together
    for path in list(antt_files()) + sorted(glob.glob("crates/*/src/**/*.rt", recursive=True)):
        text = open(path).read()
        outside = imported(text)
        code = "\n".join(re.sub(r"(--|//)\s.*", "", l) for l in text.split("\n"))
        tokens = set(TOKEN.findall(code))
        mine = dict(table)
        goals = set()
        if answers(path):
            goals = set(re.findall(r"\b(?:goal|given)\.([^\s(){};,.]+)", text))
            for m in re.finditer(r"\.(?:Goals|Given)\.\{([^}]*)\}", text):
                goals.update(n.strip() for n in m[1].split(","))
        for name in goals:
            mine.pop(name, None)
        if path.endswith(".antt"):
            for name in bound_names(path, text) - goals:
                mine.setdefault(name, snake(name))
        for where, old, new in SET_APART:
            if path.startswith(where):
                mine[old] = new
        for name in outside:
            mine.pop(name, None)
        if answers(path):
            mine.update(generated(tokens - set(mine) - outside, words_of(path.split("/")[1])))
        by_new = collections.defaultdict(set)
        for t in tokens:
            by_new[mine.get(t, t)].add(t)
        for new, olds in sorted(by_new.items()):
            if len(olds) > 1:
                print(f"together: {path}: {new}: {' '.join(sorted(olds))}")
        new = turn(text, mine, True)
        if new != text:
            open(path, "w").write(new)
    for old, new in CRATES.items():
        rename_crate(old, new)


def words_of(crate, known={}):
    """The words with an underscore in a crate's source."""
    if crate not in known:
        texts = [open(p).read() for p in glob.glob(f"crates/{crate}/src/**/*.rt", recursive=True)]
        known[crate] = {w for t in texts for w in re.findall(r"\b[a-z]\w*_\w*\w\b", t)}
    return known[crate]


def generated(tokens, source):
    """A step's or goal's name is made of names of the source, which keep their spelling."""
    longest = sorted(source | {"invariant_of"}, key=len, reverse=True)
    made = {}
    for token in tokens:
        if "-" not in token or not re.fullmatch(r"[\w'-]+", token):
            continue
        new = token
        for name in longest:
            new = re.sub(rf"(?<![\w]){re.escape(name.replace('_', '-'))}(?![\w])", name, new)
        if new != token:
            made[token] = new
    return made


def rename_crate(old, new):
    if not os.path.isdir(f"crates/{old}"):
        return
    os.rename(f"crates/{old}", f"crates/{new}")
    lines = open("crates.txt").read().split("\n")
    open("crates.txt", "w").write("\n".join(re.sub(rf"\b{old}\b", new, l) for l in lines))
    for path in list(antt_files()) + glob.glob("crates/*/src/**/*.rt", recursive=True):
        text = open(path).read()
        now = re.sub(rf"\bRattle\.{old}\.", f"Rattle.{new}.", text)
        if path.endswith(".rt"):
            now = re.sub(rf"(?m)^(\s*(?:pub )?use ){old}::", rf"\g<1>{new}::", now)
        if now != text:
            open(path, "w").write(now)


if __name__ == "__main__":
    sys.exit(main())

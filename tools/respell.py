#!/usr/bin/env python3
"""Brings the names that this repository defines in specs/ and proofs/ to the spelling of today's library.

usage: python3 tools/respell.py            at the top of the checkout; a second run changes nothing

Functions, lemmas, fields and constructors get snake case (a-name -> a_name), types and facts upper camel case
(A-fact -> AFact), and a name that ended in a question mark begins with is_. Names of the library, names that the
check makes, functions of src/, strings, inputs and outputs stay. In .rt files only clauses and ghost items are turned.
"""
import collections
import glob
import re
import sys

ASKING = {"open?": "is_open", "new?": "is_new", "all-new?": "all_new", "lawful?": "is_lawful"}
# Facts that stand in lower case, and the one of them that is a label too: only where it is the fact.
FACTS = {"files_ready": "FilesReady", "list_ready": "ListReady", "next_ready": "NextReady", "ready_in": "ReadyIn"}
FACT_OR_LABEL = [
    ("crates/check/specs/Resume.antt", re.compile(r"(?<![\w'.-])ready(?![\w'-])"), "Ready"),
    ("crates/check/src/walk.rt", re.compile(r"(?<![\w'.-])ready(?=,| met )"), "Ready"),
]
TOKEN = re.compile(r"[A-Za-z_\u0370-\u03ff\u2080-\u209c][\w'?\u2080-\u209c-]*")
HEAD = re.compile(r"\s*(?:pub |abbrev |unfoldable |data |record |let |in |where )*([A-Za-z_][\w'?-]*)\s*(?:\{|\(|:)")
ALIAS = re.compile(r" as ([A-Za-z_][\w'?-]*)")
# Names of this repository that the check makes names like.
OWN_THOUGH_CITED = {"data-blocks", "load-member"}
BOUND = re.compile(r"(?:let|λ|\()\s*([A-Za-z_][\w'?-]*)\s*(?::|=|\.)\s")
IMPORT = re.compile(r"use Rattle\.(?:std|core)[\w.'-]*\.\{([^}]*)\}")
CITED = re.compile(r"\b(?:c|l|g|goal|given|rec)((?:\.[\w'?-]+)+)")


def code_of(line):
    return re.sub(r"--.*", "", line)


def antt_files():
    return sorted(glob.glob("crates/*/specs/**/*.antt", recursive=True) + glob.glob("crates/*/proofs/**/*.antt", recursive=True))


def is_mine(name):
    return "-" in name or name.endswith("?")


def collect(files):
    declared, imported, cited = set(), set(), set()
    for path in files:
        with open(path, encoding="utf-8") as f:
            text = f.read()
        bare = "\n".join(code_of(line) for line in text.split("\n"))
        for line in bare.split("\n"):
            m = HEAD.match(line)
            if m and not line.startswith("use "):
                declared.add(m.group(1))
            for m in BOUND.finditer(line):
                declared.add(m.group(1))
            if line.startswith("use "):
                declared.update(ALIAS.findall(line))
        for m in IMPORT.finditer(bare):
            imported.update(re.split(r"[,\s]+", m.group(1)))
        for m in CITED.finditer(bare):
            cited.update(m.group(1).split(".")[1:])
    for path in sorted(glob.glob("crates/*/src/**/*.rt", recursive=True)):
        with open(path, encoding="utf-8") as f:
            declared.update(a for line in f if line.startswith("ghost use ") for a in ALIAS.findall(line))
    own = {n for n in declared if is_mine(n)}
    return own - imported - (cited - OWN_THOUGH_CITED), own & imported, own & cited


def spelled(name):
    if name in ASKING:
        return ASKING[name]
    if name[0].isupper() and len(name.split("-")[0]) > 1:
        return "".join(part[:1].upper() + part[1:] for part in name.split("-"))
    return name.replace("-", "_")


def turn(text, names):
    return TOKEN.sub(lambda m: names.get(m.group(0), m.group(0)), text)


def turn_rt(text, names):
    """Turns ghost items and clauses alone: what stands after ghost, requires, ensures or invariant, up to its closing brace."""
    out, i = [], 0
    start = re.compile(r"^[ \t]*(?:ghost|requires|ensures|also|invariant)\b", re.M)
    while True:
        m = start.search(text, i)
        if not m:
            out.append(text[i:])
            return "".join(out)
        out.append(text[i : m.start()])
        j, depth, seen = m.start(), 0, False
        while j < len(text):
            ch = text[j]
            if ch == "{":
                depth, seen = depth + 1, True
            elif ch == "}":
                depth -= 1
                if seen and depth == 0:
                    j += 1
                    break
            elif ch == ";" and depth == 0:
                break
            j += 1
        out.append(turn(text[m.start() : j], names))
        i = j


def main():
    files = antt_files()
    own, clash, kept = collect(files)
    names = {n: spelled(n) for n in sorted(own)}
    groups = collections.defaultdict(list)
    for n, to in names.items():
        groups[to].append(n)
    for to, group in groups.items():
        if len(group) > 1:
            print("fall together:", to, group)
    if clash or kept:
        print("left, since the library or the check has the name:", sorted(clash | kept))
    taken = set()
    for path in files:
        with open(path, encoding="utf-8") as f:
            for line in f.read().split("\n"):
                taken.update(TOKEN.findall(code_of(line)))
    for to in sorted(set(groups) & taken):
        print("stands already:", to)
    for path in files + sorted(glob.glob("crates/*/src/**/*.rt", recursive=True)):
        with open(path, encoding="utf-8") as f:
            text = f.read()
        if path.endswith(".rt"):
            new = turn_rt(text, names)
        else:
            new = "\n".join(turn(code_of(line), names) + line[len(code_of(line)) :] for line in text.split("\n"))
        if new != text:
            with open(path, "w", encoding="utf-8") as f:
                f.write(new)
    for path in glob.glob("crates/check/**/*.antt", recursive=True) + glob.glob("crates/check/src/*.rt"):
        with open(path, encoding="utf-8") as f:
            text = f.read()
        new = turn(text, FACTS)
        for at, pattern, to in FACT_OR_LABEL:
            if path == at:
                new = pattern.sub(to, new)
        if new != text:
            with open(path, "w", encoding="utf-8") as f:
                f.write(new)
    print(len(names), "names turned")


if __name__ == "__main__":
    sys.exit(main())

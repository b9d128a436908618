#!/usr/bin/env python3
"""Spells the repository's own ghost names as today's Rattle does, after port.py has run.

    python3 tools/respell.py [FOLDER]

Run once, in the folder of a checkout (the current one if none is given). In crates/*/specs, crates/*/proofs, the sources
and the must-fail edits:
- a definition, lemma, field or constructor in lower camel case gets snake case (planHold: plan_hold). Constructors that
  begin with a capital keep it: they have the names of the variants of the source, and Hold and Sync would fall together
  with constructors that are named hold and sync already;
- a fact (what ends in Type 0) that began with a small letter begins with a capital (orderOn: OrderOn);
- in specs/ and in clauses eqb, ltb and leb are nat_eq, nat_lt and nat_le, which are other names of the same functions.
In README.md and docs/*.md, a name that is respelled here, or that port.py respelled, is written as it now stands.
It changes no name of a function of the source, no string and no number, and stops where two names would fall together.
"""
import collections
import glob
import os
import re
import sys

os.chdir(sys.argv[1] if len(sys.argv) > 1 else ".")

FACTS = {"orderOn": "OrderOn", "recordOn": "RecordOn", "allDone": "AllDone"}
# names of the library, which stay
LIBRARY = {"cases_Bool", "not_T"}
TESTS = {"eqb": "nat_eq", "ltb": "nat_lt", "leb": "nat_le"}
# pairs that are two names still: one is a function of the source, whose folder of proofs has its name, or lies in another crate
APART = {
    "all_yes", "entries_ok", "first_fault", "first_lacking", "give_up", "gives_up", "hold_all", "is_ruled", "lists_ok",
    "may_rule", "next_rulable", "no_record", "stop_asking", "told_yes",
}
# crate: its lemmas that would fall together with what they speak of, and get _lem. A name behind a dot is a path's, and stays
LEMMAS = {"protocol": {"all_said", "same_bool", "whole_in"}, "home": {"all_said"}, "promise": {"same_entries"}}

LEMMA = re.compile(r"(?<![.\w'\-])[A-Za-z_][\w'\-]*")
TOKEN = re.compile(r"[A-Za-z_][\w'\-]*")
# an import of a name and of its other name is one import
TWICE = re.compile(r"\{[^{}\n]*\}(?=\s*(?:\n|;|$))")
STRING = re.compile(r"""b?"(?:[^"\\]|\\.)*"|b?'(?:[^'\\\n]|\\.)'""")


def snake(word):
    if word in LIBRARY:
        return word
    if word in FACTS:
        return FACTS[word]
    parts = []
    for part in word.split("-"):
        if re.match(r"[a-z][a-z0-9_]*[A-Z]", part):
            part = re.sub(r"(?<=[a-z0-9])([A-Z])", r"_\1", part).lower()
        parts.append(part)
    return "-".join(parts)


def once(text):
    def names(m):
        return "{" + ", ".join(dict.fromkeys(m.group()[1:-1].split(", "))) + "}"

    return "\n".join(TWICE.sub(names, line) if line.lstrip().startswith(("use ", "pub use ")) else line for line in text.split("\n"))


def paths(*patterns):
    return sorted(p for pattern in patterns for p in glob.glob(pattern, recursive=True) if "/out/" not in p)


def read(path):
    with open(path, encoding="utf-8") as f:
        return f.read()


def write(path, text, before):
    if text != before:
        with open(path, "w", encoding="utf-8") as f:
            f.write(text)


def bare(text):
    return re.sub(r"--.*", "", text)


GHOST = paths("crates/*/specs/**/*.antt", "crates/*/proofs/**/*.antt")
SOURCE = paths("crates/*/src/**/*.rt")
EDITS = paths("crates/*/must-fail/*.edit")

there = collections.Counter(w for p in GHOST for w in TOKEN.findall(bare(read(p))))
renamed = {w: snake(w) for w in there if snake(w) != w}
for old, new in renamed.items():
    if new in there and new not in APART and not any(new in names for names in LEMMAS.values()):
        sys.exit(f"{old} and {new} would fall together")
if len(set(renamed.values())) < len(renamed):
    sys.exit("two names would become one")


def respelled(text, more):
    return TOKEN.sub(lambda m: more.get(m.group(), m.group()), text)


def outside_strings(text, more):
    ends, at = [], 0
    for m in STRING.finditer(text):
        ends.append(respelled(text[at:m.start()], more))
        ends.append(m.group())
        at = m.end()
    return "".join(ends) + respelled(text[at:], more)


for path in GHOST:
    text = read(path)
    lemmas = LEMMAS.get(path.split("/")[1], ())
    apart = LEMMA.sub(lambda m: m.group() + "_lem" if m.group() in lemmas else m.group(), text)
    more = {**renamed, **TESTS} if "/specs/" in path else renamed
    write(path, once(outside_strings(apart, more)), text)
for path in SOURCE:
    text = read(path)
    # the source's own names are in snake case already: what is not is a ghost name, or one by which a clause's file imports it
    more = {w: snake(w) for w in TOKEN.findall(text) if snake(w) != w}
    write(path, outside_strings(text, {**more, **TESTS}), text)
for path in EDITS:
    text = read(path)
    more = {**renamed, **(TESTS if re.search(r"^file: specs/", text, re.M) else {})}
    write(path, outside_strings(text, more), text)

# what stands in the tree now, for the documents: also the names that port.py respelled
now = {w for p in GHOST for w in TOKEN.findall(bare(read(p)))}
for path in paths("README.md", "docs/*.md", "bench/README.md", "second/README.md"):
    text = read(path)
    camel = {w: snake(w) for w in TOKEN.findall(text) if snake(w) != w and snake(w) in now}
    write(path, respelled(text, camel), text)

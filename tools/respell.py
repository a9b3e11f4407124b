#!/usr/bin/env python3
"""Spells the names that this repository's own proof files declare as the library spells its own: words in snake case.

usage: tools/respell.py [--table]     at the top of the repository; with --table it prints each old and new name and writes nothing

A name that an .antt file below specs/ or proofs/ declares, or that a `use` renames, is turned where it has a dash or a capital inside:
`capacityOf` becomes `capacity_of`, `row-zero-end` becomes `row_zero_end`. Types and modules keep their capitals, operators their
form, and the library's `getD` is `get_or` now. The names that Rattle makes for goals and steps stay: an answer's own, and what stands
behind a dot in a function's Answers and Invariants, unless it is a field of a record that is declared here. A new name that is in
use already in a file that has the old one is refused, and so are two names that would fall together. A second run changes nothing.
"""

import collections
import glob
import re
import sys

NAME = r"[^\s(){}.;,@\"«»]+"
HEAD = re.compile(r"^( *)(?:(?:pub|abbrev|unfoldable) )*(" + NAME + r")(?: \{[^{}\n]*\}| \([^()\n]*\))* :(?!=) *(.*)$")
ALIAS = re.compile(r"[\w-]+ as (\w+)")
RECORD = re.compile(r"^( *)(?:pub )?(?:record|data) ")
WORD = re.compile(r"--[^\n]*|" + NAME)
# A lemma whose name would fall together with the definition that it is about.
APART = {"field-at": "field_at_lem", "with-life": "with_life_lem"}


def files():
    for crate in sorted(glob.glob("crates/*")):
        for folder in ("specs", "proofs", "src"):
            for path in sorted(glob.glob(f"{crate}/{folder}/**/*", recursive=True)):
                if path.endswith((".antt", ".rt")):
                    yield path


def of_a_function(path):
    return path.endswith(("/Answers.antt", "/Invariants.antt"))


def turned(name):
    if name in APART:
        return APART[name]
    name = re.sub(r"\bgetD(?=-|$)", "get_or", name)
    name = re.sub(r"(?<=[a-z0-9])[A-Z]", lambda it: "_" + it[0].lower(), name)
    return name.replace("-", "_")


def main(words):
    texts = {}
    for path in files():
        with open(path, encoding="utf-8") as f:
            texts[path] = f.read()
    declared, fields = collections.defaultdict(set), set()
    for path, text in texts.items():
        if path.endswith(".rt"):
            for line in re.findall(r"ghost use[^;]*;", text):
                for it in ALIAS.findall(line):
                    declared[it].add(path)
            continue
        within = None
        for line in text.split("\n"):
            record = RECORD.match(line)
            if record:
                within = len(record[1])
                continue
            head = HEAD.match(line)
            if within is not None and line.strip() and len(line) - len(line.lstrip()) <= within:
                within = None
            if head and not head[3].startswith("goal."):
                declared[head[2]].add(path)
                if within is not None:
                    fields.add(head[2])
    table = {}
    for name in declared:
        if name[0].islower() and "◌" not in name and turned(name) != name:
            table[name] = turned(name)
    met = collections.Counter(table.values())
    # Behind a dot stands a path or a field; and a function of src/ may have a definition's name, as in the library.
    used = {path: set(re.findall(r"(?<![^\s(){};,@\"«»])" + NAME, re.sub(r"--[^\n]*", "", text))) for path, text in texts.items() if path.endswith(".antt")}
    bad = [f"{old} -> {new}: two names fall together" for old, new in table.items() if met[new] > 1 or new in declared]
    for path, words_of in used.items():
        bad += [f"{path}: {old} -> {new}: the new name is in use" for old, new in table.items() if old in words_of and new in words_of]
    if bad:
        print("\n".join(bad))
        return 1
    if words == ["--table"]:
        for old in sorted(table):
            print(f"{old}\t{table[old]}")
        return 0
    for path, text in texts.items():

        def turn(it):
            word = it[0]
            if of_a_function(path) and text[it.start() - 1 : it.start()] == "." and word not in fields:
                return word
            return table.get(word, word)

        if path.endswith(".antt"):
            new = WORD.sub(turn, text)
        else:
            new = re.sub(r"(?<![\w'-])[a-z][\w'-]*", lambda it: table.get(it[0], it[0]), text)
        if new != text:
            with open(path, "w", encoding="utf-8") as f:
                f.write(new)
    return 0


if __name__ == "__main__":
    raise SystemExit(main(sys.argv[1:]))

#!/usr/bin/env python3
"""snake_names: brings this repository's own definitions, fields and lemmas to the spelling of today's Rattle.

usage: python3 tools/snake_names.py          at the top, once, right after the kit's port.py
       python3 tools/snake_names.py --list   names the renamings and changes nothing

Words are in snake case. A dash stays only where it joins a definition's name to a word of std (length-halves); else it becomes '_'. A lemma
that would have its definition's name gets '_lem', and a field that would have one's gets '_holds' where its file names that definition.
Types, modules, functions of src/, strings, inputs and outputs keep their names. It stops where two names would fall together.
The names in backticks in README.md and docs/ (but for docs/requests, which tell of the past) follow.
"""
import collections
import os
import re
import sys

MODIFIERS = r"(?:(?:abbrev|unfoldable|pub)\s+)*"
DEFINES = re.compile(r"^(\s*)(" + MODIFIERS + r")([a-z][A-Za-z0-9'_\u2080-\u2089-]*)\s+:\s")
GENERATED = ("Proof.antt", "Answers.antt", "Invariants.antt")
# words of std that stand in names of lemmas as the names that they are
OF_STD = {"length", "take", "drop", "get_or", "map", "set", "sets", "append", "cond", "reverse"}
NAME = re.compile(r"[A-Za-z_][A-Za-z0-9_'\u2080-\u2089]*(?:-[A-Za-z0-9_'\u2080-\u2089]+)*")
# where the rule's name is another definition's already, the name that is taken instead
BY_HAND = {
    # as std has it
    "and-true": "and-true",
    "carrier-row-octets": "octets_to_a_carrier_row",
    "row-octets": "octets_to_a_row",
    "over-limits": "over_the_limits",
    "common-head": "octets_to_a_common_head",
    "transfer-head": "octets_to_a_transfer_head",
}


def files(ending):
    for folder, dirs, names in os.walk("crates"):
        dirs[:] = sorted(d for d in dirs if d != "out")
        for name in sorted(names):
            if name.endswith(ending):
                yield os.path.join(folder, name)


def snake(word):
    return re.sub(r"(?<=[a-z0-9])([A-Z])", r"_\1", word).lower()


def collect():
    """name: its kinds ('definition', 'field', 'lemma') and the files of each"""
    kinds = collections.defaultdict(lambda: collections.defaultdict(set))
    for path in files(".antt"):
        proof = os.path.basename(path) in GENERATED and "/proofs/" in path
        record = False
        with open(path, encoding="utf-8") as f:
            for line in f:
                if not line.startswith((" ", "\n")):
                    record = re.match(r"(pub )?record ", line) is not None
                m = DEFINES.match(line)
                if not m:
                    continue
                name = m.group(3)
                if proof and not (name.endswith("-spec") and "pub" in m.group(2)):
                    continue
                definition = "abbrev" in m.group(2) or "unfoldable" in m.group(2)
                kinds[name]["definition" if definition else "field" if record and m.group(1) else "lemma"].add(path)
    return kinds


def renamings():
    kinds = collect()
    words = {snake(n).replace("-", "_") for n, k in kinds.items() if "definition" in k}
    new = {}
    for name, kind in kinds.items():
        parts = [snake(p) for p in name.split("-")]
        text = "_".join(parts)
        if "definition" not in kind:
            for i in range(1, len(parts)):
                left, right = "_".join(parts[:i]), "_".join(parts[i:])
                if left in words | OF_STD and right in words | OF_STD and (left in OF_STD or right in OF_STD):
                    text = left + "-" + right
                    break
        new[name] = BY_HAND.get(name, text)
    taken = collections.defaultdict(set)
    for name, text in new.items():
        taken[text].add(name)
    clashes = {}
    for text, names in taken.items():
        if len(names) == 1:
            continue
        defined = [n for n in names if "definition" in kinds[n]]
        for name in names:
            if "lemma" in kinds[name] and name not in defined:
                new[name] = text + "_lem"
            elif "field" in kinds[name] and name not in defined and names_one(kinds[name]["field"], defined):
                new[name] = text + "_holds"
        if len(defined) > 1 or any(n in taken for n in (text + "_lem", text + "_holds") if n in new.values()):
            clashes[text] = {n: {k: sorted(p) for k, p in kinds[n].items()} for n in names}
    return {old: text for old, text in new.items() if old != text}, clashes


def names_one(paths, names):
    """whether one of the files has one of the names"""
    for path in paths:
        with open(path, encoding="utf-8") as f:
            if set(NAME.findall(f.read())) & set(names):
                return True
    return False


def in_text(text, new, dashes):
    """text with each name renamed; behind a lower-case word and a dot as well, where fields stand"""

    def one(m):
        word = m.group(0)
        if "-" in word and not dashes:
            return word
        return new.get(word, word)

    return NAME.sub(one, text)


def rust(line, new):
    """a function of src/ keeps its name where a lemma of that name gets another"""
    new = {old: text for old, text in new.items() if old != snake(old).replace("-", "_")}
    code, comment, note = line.partition("//")
    return in_text(code, new, True) + comment + in_text(note, new, False)


def antt(line, new):
    code, comment, note = line.partition("-- ") if "-- " in line else (line, "", "")
    return in_text(code, new, True) + comment + in_text(note, new, False)


def page(text, new):
    return re.sub(r"`[^`\n]+`", lambda m: in_text(m.group(0), new, True), text)


def main(words):
    if not os.path.isdir("crates"):
        sys.exit("snake_names: run it at the top of the repository")
    new, clashes = renamings()
    if "--list" in words:
        for old in sorted(new):
            print(old, new[old])
        for to in sorted(clashes):
            print("together:", to, clashes[to])
        return
    if clashes:
        sys.exit("snake_names: these would fall together: " + ", ".join(sorted(clashes)))
    changed = 0
    for ending, turn in ((".antt", antt), (".rt", rust)):
        for path in list(files(ending)):
            with open(path, encoding="utf-8") as f:
                old = f.read()
            text = "".join(turn(line, new) for line in old.splitlines(keepends=True))
            if text != old:
                with open(path, "w", encoding="utf-8") as f:
                    f.write(text)
                changed += 1
    for path in ["README.md"] + sorted(os.path.join("docs", f) for f in os.listdir("docs") if f.endswith(".md")):
        with open(path, encoding="utf-8") as f:
            old = f.read()
        text = page(old, new)
        if text != old:
            with open(path, "w", encoding="utf-8") as f:
                f.write(text)
            changed += 1
    print(f"snake_names: {len(new)} names, {changed} files")


main(sys.argv[1:])

#!/usr/bin/env python3
"""Brings the repository's own definitions and lemmas to snake case, once, after the kit's port.py.

A definition of specs/ or a lemma of proofs/*.antt that is written in camel case or with dashes gets underscores: `numberOf` is `number_of`,
`wrap-fits` is `wrap_fits`, `toZ-high` is `to_z_high`. Types, facts and modules keep their capitals. Functions of src/, exported names, strings,
inputs and outputs keep theirs. Every .rt and .antt file, every must-fail edit and every page is turned by the same list, which is printed.

    tools/spelling.py [FOLDER]      in place; a name that would fall together with another is refused before anything is written
"""
import collections
import glob
import os
import re
import sys

NAME = r"[^\s(){}\[\],.;«»\"`]+"
DEFINED = re.compile(r"^ *(?:(?:abbrev|unfoldable|pub)\s+)*(" + NAME + r")\s+:(?:\s|$)")
FIELD = re.compile(r"^ +pub ([a-z][A-Za-z0-9'-]*) : ")
# A lemma that would have its function's name gets _lem.
LEMMAS = ["bit-and", "bit-or", "bit-xor", "place-seen", "older-measures", "start-at", "start-of", "mirrored-word", "state-words", "state-size",
    "from-to", "moved-by", "whole-by", "made-from", "at-first", "walk-by", "by-mode", "begun-by", "counts-fit", "words-fit", "in-zone", "marked-y", "marked-x", "reads-short", "odd-signs",
    "displaced-in", "on-entry", "by-found", "by-displaced"]
# A definition that would fall together with a lemma of another crate.
OTHERS = {"isOpen": "said_is_open", "hasRoom": "carry_has_room"}
# A lemma that would have the name of a definition that its file brings in; port.py has turned the dashes of all but the last.
HERE = {
    "crates/feed_arriving/proofs/Loop.antt": {"at_first": "at_first_lem"},
    "crates/feed_look/proofs/Looks.antt": {"whole_by": "whole_by_lem"},
    "crates/iup/proofs/Spread.antt": {"moved_by": "moved_by_lem"},
    "crates/laws_feed/proofs/Examples.antt": {"reads_short": "reads_short_lem"},
    "crates/laws_feed/proofs/Whole.antt": {"whole_by": "whole_by_lem"},
    "crates/normalize/proofs/Nearness.antt": {"moved_by": "moved_by_lem"},
    "crates/round/proofs/Seen.antt": {"by_mode": "by_mode_lem"},
    "crates/laws_outcome/proofs/Outcome.antt": {"both-moved": "both_moved_lem"},
}


def snake(name):
    if not name[:1].islower():
        return name
    parts = []
    for part in name.split("-"):
        parts.append(re.sub(r"([a-z0-9])([A-Z])", r"\1_\2", part).lower())
    return "_".join(parts)


def antt_files():
    return sorted(glob.glob("crates/*/specs/**/*.antt", recursive=True) + glob.glob("crates/*/proofs/*.antt"))


def defined():
    """Each file's own names, in order."""
    found = collections.OrderedDict()
    for path in antt_files():
        lines = open(path, encoding="utf-8").read().split("\n")
        found[path] = [m.group(1) for m in map(DEFINED.match, lines) if m]
    return found


def renamed(found):
    table = {}
    for names in found.values():
        for name in names:
            if re.fullmatch(r"[a-z][A-Za-z0-9'-]*", name) and snake(name) != name:
                table[name] = OTHERS.get(name) or snake(name) + "_lem" * (name in LEMMAS)
    for path in found:
        for name in map(FIELD.match, open(path, encoding="utf-8")):
            if name and snake(name.group(1)) != name.group(1):
                table.setdefault(name.group(1), snake(name.group(1)))
    return table


def clashes(found, table):
    said = []
    for path, names in found.items():
        here = {**table, **HERE.get(path, {})}
        new = collections.defaultdict(set)
        for name in names:
            new[here.get(name, name)].add(name)
        said += [f"{path}: {sorted(olds)} would all be {name}" for name, olds in new.items() if len(olds) > 1]
        text = open(path, encoding="utf-8").read()
        for line in re.findall(r"^use .*\{(.*)\}", text, re.M):
            for item in line.split(","):
                item = item.strip().split(" as ")[-1]
                if item not in names and item not in table and item in {table.get(n, n) for n in names}:
                    said.append(f"{path}: brings in {item}, and would define it")
    for path in sorted(glob.glob("crates/**/*.antt", recursive=True) + glob.glob("crates/*/src/*.rt")):
        if "/out/" in path:
            continue
        brought = collections.Counter()
        for line in re.findall(r"^(?:ghost )?use Rattle[^{]*\{(.*)\}", open(path, encoding="utf-8").read(), re.M):
            for item in line.split(","):
                brought[table.get(item.strip().split(" as ")[-1], item.strip().split(" as ")[-1])] += 1
        said += [f"{path}: would bring in {name} {times} times" for name, times in brought.items() if times > 1]
    return said


def brought_from_the_kit(text):
    """The names that a file brings in from a library of the kit, which keep their spelling there."""
    lines = re.findall(r"^use (?:lib|mathlib|native|Prim|borrow|mir|Rattle\.std)[^{]*\{(.*)\}", text, re.M)
    return {item.strip().split(" as ")[0] for line in lines for item in line.split(",")}


def turned(text, table):
    kept = brought_from_the_kit(text)
    table = {old: new for old, new in table.items() if old not in kept}
    token = re.compile(r"(?<![A-Za-z0-9_'·-])[a-z][A-Za-z0-9_']*(?:-[A-Za-z0-9_']+)*(?![A-Za-z0-9_'·-])")
    return token.sub(lambda m: table.get(m.group(0), m.group(0)), text)


def turned_rt(text, table):
    """A .rt file: all but its string literals."""
    pieces = re.split(r'("(?:[^"\\]|\\.)*")', text)
    return "".join(piece if k % 2 else turned(piece, table) for k, piece in enumerate(pieces))


def main():
    if len(sys.argv) > 1:
        os.chdir(sys.argv[1])
    found = defined()
    table = renamed(found)
    said = clashes(found, table)
    if said:
        print("\n".join(said))
        sys.exit(1)
    for path in sorted(glob.glob("crates/**/*", recursive=True)):
        if "/out/" in path or not os.path.isfile(path) or not path.endswith((".rt", ".antt", ".edit")):
            continue
        text = open(path, encoding="utf-8").read()
        here = {**table, **HERE.get(path, {})}
        new = turned_rt(text, here) if path.endswith(".rt") else turned(text, here)
        if new != text:
            open(path, "w", encoding="utf-8").write(new)
    pages = ["README.md"] + sorted(glob.glob("docs/**/*.md", recursive=True))
    for path in pages:
        text = open(path, encoding="utf-8").read()
        new = re.sub(r"`[^`\n]+`", lambda m: turned(m.group(0), table), text)
        if new != text:
            open(path, "w", encoding="utf-8").write(new)
    for old, new in sorted(table.items()):
        print(old, new)


if __name__ == "__main__":
    main()

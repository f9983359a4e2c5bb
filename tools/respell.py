#!/usr/bin/env python3
"""Brings the repository's own definitions and lemmas to today's spelling: words in snake case, the prime an apostrophe.

usage: python3 tools/respell.py    once, at the top, on what the kit's port.py left

A name is the repository's own where a file of specs/ or proofs/ declares it; a name that a file imports from a library stays. Functions of
src/, exported names, strings and numbers stay. Where a lemma would get the name of a definition, it gets _lem.
"""

import collections
import os
import re

NAME = r"[A-Za-z][A-Za-z0-9_'′]*(?:-[A-Za-z0-9_'′]+)*"
SIGNATURE = re.compile(r"^( *)((?:pub |abbrev |unfoldable )*)(%s) :(?: |$)" % NAME)
TOKEN = re.compile(r'"(?:[^"\\]|\\.)*"|--[^\n]*|(?<![A-Za-z0-9_\'′«-])%s' % NAME)
IMPORT = re.compile(r"(?m)^(?:ghost )?use ([^;{\n]+?)\.\{([^}]*)\}")

# Names that would fall together with others, or that are taken.
CHOSEN = {
    "equal-tables": "two_equal_tables",
    "first_of": "first_among",
    "page-of-S": "s_page",
    "block_type": "block_type_lem",
    "table-word": "word_of_table",
    "no-device": "device_absent",
    "placed-all": "placed_whole",
    "piece-runs": "piece_runs_lem",
    "window-runs": "window_runs_lem",
    "slot-runs": "slot_runs_lem",
}
CHOSEN_IN = {
    "runs": {"goes_on": "goes_on_lem"},
    "runs_theorems": {"goes_on": "goes_on_lem"},
    "leafmap_theorems": {"in_map": "in_map_lem"},
}
# A field of a record and a definition.
APART = {"last_line"}


def sources(root):
    for folder, dirs, files in os.walk(os.path.join(root, "crates")):
        dirs[:] = sorted(d for d in dirs if d not in ("out", ".git"))
        for f in sorted(files):
            if f.endswith((".antt", ".rt")):
                yield os.path.join(folder, f)


def snake(name):
    name = name.replace("′", "'")
    if name[0].isupper():
        return name
    name = re.sub(r"([a-z0-9])([A-Z])", r"\1_\2", name)
    name = re.sub(r"([A-Z])([A-Z][a-z])", r"\1_\2", name)
    return name.replace("-", "_").lower()


def declared(root):
    """The names that specs/ and proofs/ declare: definitions of specs/, lemmas, and fields and constructors."""
    definitions, lemmas = set(), set()
    for path in sources(root):
        if path.endswith(".rt"):
            continue
        with open(path, encoding="utf-8") as f:
            for line in f:
                m = SIGNATURE.match(line)
                if m:
                    (definitions if "/specs/" in path and "-" not in m.group(3) else lemmas).add(m.group(3))
    return definitions, lemmas - definitions


def mapping(root):
    definitions, lemmas = declared(root)
    new = {}
    for name in definitions:
        new[name] = CHOSEN.get(name, snake(name))
    taken = set(new.values())
    for name in lemmas:
        to = CHOSEN.get(name, snake(name))
        new[name] = to + "_lem" if to in taken and name not in CHOSEN and to != name else to
    return {a: b for a, b in new.items() if a != b}


def imported(text):
    """The names that a file has from a library."""
    names = set()
    for module, listed in IMPORT.findall(text):
        if not re.match(r"Rattle\.(?!std\b|core\b)", module.strip()):
            for item in re.split(r",\s*", listed.strip()):
                names.update(item.split(" as "))
    return names


def respelled(text, new, source):
    """The text with its own names as new has them; in code of src/ the names with a dash are of clauses' imports alone."""
    theirs = imported(text)

    def change(m):
        word = m.group(0)
        if word.startswith('"'):
            return word
        if word.startswith("--"):
            return re.sub(r"(?<![A-Za-z0-9_'-])%s" % NAME, lambda c: comment(c), word)
        return name(word, m)

    def comment(c):
        word = c.group(0)
        quoted = c.start() > 0 and c.string[c.start() - 1] == "`"
        return new.get(word, word) if word not in theirs and (quoted or re.search("[a-z][A-Z]", word)) else word

    def name(word, m):
        if word in theirs or word not in new:
            return word
        before = text[: m.start()]
        if before.endswith(".") and not re.search("[a-z][A-Z]", word) and "/Proof" in source:
            return word
        if source.endswith(".rt") and "-" in word and not before[before.rfind("\n") :].lstrip().startswith("ghost use"):
            return word
        return new[word]

    return TOKEN.sub(change, text)


def fell_together(text, new, theirs):
    """Names of one file that were two and would be one."""
    seen = collections.defaultdict(set)
    for m in TOKEN.finditer(text):
        word = m.group(0)
        if word[0] in '"-' or text[m.start() - 1 : m.start()] == "." or text[m.end() : m.end() + 1] == ".":
            continue
        seen[new.get(word, word) if word not in theirs else word].add(word)
    return {to: words for to, words in seen.items() if len(words) > 1}


def main():
    root = os.getcwd()
    new = mapping(root)
    everywhere = new
    bad = 0
    changed = {}
    for path in sources(root):
        with open(path, encoding="utf-8") as f:
            text = f.read()
        new = everywhere | CHOSEN_IN.get(os.path.relpath(path, root).split(os.sep)[1], {})
        # a function and the definition that its contract cites may have one name
        for to, words in () if path.endswith(".rt") else fell_together(text, new, imported(text)).items():
            if to not in APART:
                print(f"{os.path.relpath(path, root)}: {', '.join(sorted(words))} would be {to}")
                bad += 1
        to = respelled(text, new, path)
        if to != text:
            changed[path] = to
    if bad:
        print(f"{bad} names would fall together: choose others")
        return 1
    for path, text in changed.items():
        with open(path, "w", encoding="utf-8") as f:
            f.write(text)
    print(f"{len(everywhere)} names, {len(changed)} files")
    return 0


if __name__ == "__main__":
    raise SystemExit(main())

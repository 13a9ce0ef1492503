#!/usr/bin/env python3
"""Respells the repository's own definitions and lemmas: words in snake case, types and facts in camel case.

usage: python3 tools/respell.py [--list]      at the top of the repository, once; --list prints the new names and changes nothing

A name is turned where it is declared in a file of specs/ or proofs/ of a crate, and in each file that declares it or imports it
from a crate of the repository. Names that Rattle makes (goals, steps), functions of src/, strings, inputs and outputs stay.
Where two names would fall together in a file, the lemma gets _lem.
"""
import collections
import os
import re
import sys

ROOT = "crates"
WORD = r"[^\s(){}\[\]:;,.\"`]"
TOKEN = re.compile(WORD + "+")
SIGNATURE = re.compile(r"^\s*(?:(?:pub|abbrev|unfoldable)\s+)*(?:(data|record|ruleset)\s+)?([^\s:(){}\[\].]+)(?:\s+[({].*?)?\s*:\s")
GOAL = re.compile(r":\s*(?:\w+\s+)*(?:goal|need|given)\.")
IMPORT = re.compile(r"use\s+Rattle\.(\w+)\.([^\s{;]*?)\.\{([^}]*)\}", re.S)
KEYWORDS = {"let", "in", "elim", "where", "use", "pub", "abbrev", "unfoldable", "data", "record", "mod", "module", "--", "unfolding", "|", "→", "λ"}
# Words that std writes otherwise today.
STD = [("ltZ", "int_lt"), ("leZ", "int_le"), ("maxZ", "int_max"), ("minZ", "int_min"), ("getD", "get_or")]


def texts(*endings):
    for folder, dirs, files in os.walk(ROOT):
        dirs[:] = sorted(d for d in dirs if d != "out")
        for name in sorted(files):
            if name.endswith(endings):
                yield os.path.join(folder, name)


def declared(text):
    names = set()
    for line in text.split("\n"):
        if GOAL.search(line):
            continue
        m = SIGNATURE.match(line)
        if m and m.group(2) not in KEYWORDS and not m.group(2).startswith("--"):
            names.add(m.group(2))
    return names


def is_camel(name):
    return re.search(r"[a-z0-9][A-Z]", name) is not None and not re.search(r"(^|[^\w])[A-Z]", name)


def is_fact(name):
    return name[0].isupper() and re.match(r"[A-Z][a-z]", name) is not None and re.search("[-_]", name) is not None


def is_dashed(name):
    return name[0].islower() and "-" in name


def respelt(name):
    if is_fact(name):
        return "".join(w[:1].upper() + w[1:] for w in re.split("[-_]", name))
    for old, new in STD:
        name = name.replace(old, new)
    name = re.sub(r"([a-z0-9])([A-Z])", lambda m: m.group(1) + "_" + m.group(2).lower(), name)
    return name.replace("-", "_").lower() if re.match(r"^[A-Za-z0-9_'-]*$", name) else re.sub(r"(?<=[a-z0-9])-|-(?=[a-z])", "_", name)


def imported(text, crates):
    names = set()
    for crate, _, inside in IMPORT.findall(text):
        if crate in crates:
            for it in inside.split(","):
                names.add(it.split(" as ")[0].strip())
    return names


def main(argv):
    crates = {c for c in os.listdir(ROOT)}
    text_of, own_of, scope_of = {}, {}, {}
    for path in texts(".antt", ".rt"):
        with open(path, encoding="utf-8") as f:
            text_of[path] = f.read()
        own_of[path] = declared(text_of[path]) if path.endswith(".antt") else set()
        # Variables and fields that have the older spelling are turned with the rest.
        own_of[path] |= {w for w in TOKEN.findall(text_of[path]) if is_camel(w) and re.match(r"^[a-z][A-Za-z0-9]*$", w)}
    own = set().union(*own_of.values())
    wanted = {n for n in own if is_camel(n) or is_fact(n) or is_dashed(n)}
    # Lemmas that have a definition's new name already, where one file has both.
    camel = {respelt(n): n for n in own if is_camel(n)}
    taken = {
        camel_new
        for camel_new, old in camel.items()
        if camel_new in own
        and any(old in (words := set(TOKEN.findall(t))) and camel_new in words for p, t in text_of.items() if p.endswith(".antt"))
    }
    wanted |= taken
    for path, text in text_of.items():
        scope_of[path] = (own_of[path] | imported(text, crates)) & wanted
    # Names that fall together, with one another or with a word of the same file.
    new = {n: n + "_lem" if n in taken else respelt(n) for n in wanted}
    together = collections.defaultdict(set)
    for path, text in text_of.items():
        tokens = set(TOKEN.findall(text))
        anywhere = {n for n in wanted if (is_camel(n) or is_fact(n)) and n in tokens}
        here = scope_of[path] | anywhere
        by = collections.defaultdict(set)
        for n in here:
            by[new[n]].add(n)
        for spelt, olds in by.items():
            if len(olds) > 1 or (spelt in tokens and spelt not in olds):
                together[spelt] |= olds
    for spelt, olds in sorted(together.items()):
        for n in sorted(olds):
            if is_dashed(n):
                new[n] = spelt + "_lem"
    if "--list" in argv:
        for spelt, olds in sorted(together.items()):
            print("together:", spelt, sorted(olds), [new[n] for n in sorted(olds)])
        for n in sorted(wanted):
            print(n, new[n])
        return 0
    for path, text in text_of.items():
        scope = scope_of[path]

        def turn(m):
            word = m.group(0)
            if word not in new:
                return word
            before = text[m.start() - 1] if m.start() else " "
            if is_camel(word) or is_fact(word):
                return new[word]
            if before == "." or word not in scope:
                return word
            return new[word]

        turned = TOKEN.sub(turn, text)
        if turned != text:
            with open(path, "w", encoding="utf-8") as f:
                f.write(turned)
    return 0


if __name__ == "__main__":
    raise SystemExit(main(sys.argv[1:]))

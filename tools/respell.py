#!/usr/bin/env python3
"""Brings the repository's own definitions, lemmas, fields and parameters to one spelling: words in snake case.

usage: tools/respell.py            at the top of the repository, once, after the kit's own script
       tools/respell.py --names    prints each name with its spelling, and changes nothing

Types and modules keep their camel case; functions of src/, exported names, strings, inputs and outputs keep theirs. Where a lemma
would get the name of a definition it ends in _lem.
"""

import collections
import os
import re
import sys

NAME = re.compile(r"(?<![\w'◌])[A-Za-z_][\w'-]*")
SIGNED = re.compile(r"^(?:pub )?(?:(abbrev|unfoldable) )?(?:pub )?([A-Za-z_][\w'-]*(?: [A-Za-z_][\w'-]*)*) :(?: |$)")
FIELD = re.compile(r"^\s+(?:pub )?(?:abbrev )?([A-Za-z_][\w'-]*(?: [A-Za-z_][\w'-]*)*) :(?: |$)")
USED = re.compile(r"^\s*(?:ghost )?(?:pub )?use (.+?);?$")
CAMEL = re.compile(r"^[a-z][\w']*[A-Z]")


def files(*endings):
    for top in ("crates", "docs", "README.md"):
        for folder, dirs, names in os.walk(top) if os.path.isdir(top) else [("", [], [top])]:
            dirs[:] = sorted(d for d in dirs if d != "out")
            for name in sorted(names):
                if name.endswith(endings):
                    yield os.path.join(folder, name)


def text(path):
    with open(path, encoding="utf-8") as f:
        return f.read()


def foreign():
    """The names that the library gives: what is brought in from no crate of this repository."""
    own = {"Rattle." + d for d in os.listdir("crates")}
    found = set()
    for path in files(".antt", ".rt"):
        for line in text(path).splitlines():
            m = USED.match(line)
            if m and ".".join(m[1].split(".")[:2]) not in own:
                found.update(NAME.findall(m[1].partition("{")[2]))
    return found


def snake(name):
    words = re.sub(r"(?<=[a-z0-9'])(?=[A-Z])|(?<=[A-Z])(?=[A-Z][a-z])", "_", name) if CAMEL.match(name) else name
    words = words.lower() if CAMEL.match(name) else words
    return re.sub(r"(?<!^Each)-", "_", words)


def bare(source):
    """Rattle code without its strings, characters and comments."""
    return re.sub(r'"(?:[^"\\]|\\.)*"|b?\'(?:[^\'\\]|\\.)\'|//[^\n]*', " ", source)


def spelling():
    kept = foreign()
    rank = {}
    for path in files(".antt"):
        whole = "/proofs/" in path and path.count("/") > 3
        for line in text(path).splitlines():
            m = SIGNED.match(line)
            if m:
                r = 2 if whole else 0 if "/specs/" in path else 1
                for name in m[2].split():
                    rank[name] = min(rank.get(name, 9), r)
                continue
            m = FIELD.match(line)
            if m and not line.lstrip().startswith("--"):
                for name in m[1].split():
                    rank[name] = min(rank.get(name, 9), 0 if "/specs/" in path else 1)
    functions = set()
    for path in files(".rt"):
        code = bare(text(path))
        functions.update(re.findall(r"\bfn (\w+)", code))
        for name in NAME.findall(code):
            if CAMEL.match(name):
                rank.setdefault(name, 0)
    new = {}
    for name in rank:
        to = snake(name)
        if to != name and name not in kept and name not in functions and not name.startswith("_"):
            new[name] = to
    # A lemma that the kit's script gave a definition's name stands aside for it.
    wanted = {to for name, to in new.items() if rank[name] == 0}
    aside = {name for name, r in rank.items() if r and name not in new and name in wanted and name not in kept}
    taken = {name for name in rank if name not in new and name not in aside}
    for name in sorted(new, key=lambda n: (rank[n], not CAMEL.match(n), n)):
        to = new[name]
        while to in taken or to in kept:
            to += "'" if to.endswith("_lem") else "_lem"
        new[name] = to
        taken.add(to)
    return new, aside


def modules(path):
    """The module that a file of lemmas is."""
    return "Rattle." + path[len("crates/"):-len(".antt")].replace("/", ".")


def stand_aside(aside):
    """The files in which each such lemma is meant: its own, and those that bring it in."""
    meant = collections.defaultdict(set)
    homes = collections.defaultdict(set)
    pages = {path: text(path) for path in files(".antt", ".rt")}
    for path, page in pages.items():
        if "/proofs/" not in path or not path.endswith(".antt"):
            continue
        for line in page.splitlines():
            m = SIGNED.match(line) or FIELD.match(line)
            if m and not line.lstrip().startswith("--"):
                for name in set(m[m.lastindex].split()) & aside:
                    meant[path].add(name)
                    homes[name].add(modules(path))
    for path, page in pages.items():
        for m in re.finditer(r"use (Rattle[\w.'+-]+)\.\{([^}]*)\}", page):
            for name in set(NAME.findall(m[2])) & aside:
                if m[1] in homes[name]:
                    meant[path].add(name)
    return meant


def respelled(new, source, here=()):
    def one(m):
        name = m[0]
        dotted = source[m.start() - 1:m.start()] == "."
        if name in here and not dotted:
            return name + "_lem"
        to = new.get(name, name)
        return to[:-len("_lem")] if dotted and to.endswith("_lem") and to != name else to

    return NAME.sub(one, source)


def in_code(new, source):
    """Of Rattle code all but its strings."""
    parts = re.split(r'("(?:[^"\\\n]|\\.)*")', source)
    return "".join(p if i % 2 else respelled(new, p) for i, p in enumerate(parts))


def in_page(new, source):
    """Of a page what stands as code."""
    return re.sub(r"`[^`\n]+`", lambda m: respelled(new, m[0]), source)


def main():
    new, aside = spelling()
    if "--names" in sys.argv:
        for name, to in sorted(new.items()):
            print(name, to)
        for name in sorted(aside):
            print(name, name + "_lem", "where it is the lemma")
        return
    meant = stand_aside(aside)
    for path in files(".antt", ".rt", ".edit", ".md"):
        was = text(path)
        if path.endswith(".md"):
            became = in_page(new, was)
        elif path.endswith(".rt"):
            became = in_code(new, was)
        else:
            became = respelled(new, was, meant.get(path, ()))
        if became != was:
            with open(path, "w", encoding="utf-8") as f:
                f.write(became)
    print(f"respelled: {len(new)} names")


main()

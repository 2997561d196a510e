#!/usr/bin/env python3
"""Checks the marks "Inside:" in crates/*/specs against the contracts in crates/*/src.

A definition is inside where only contracts of private functions reach it: what they cite, and what that cites in turn. Its comment
begins with the word "Inside:", or the head comment of its file does, and then it is so of each definition of that file.

A public contract is the clauses of a function that a crate makes public (`pub fn` of an exported name, a method of an exported
type or trait, a law). What a private function, a loop or the inside of a type (`ghost view`, `ghost invariant`) cites is private.
Names are followed through the `use` lines of each file, not through types: a name that is shadowed may count as reached.

It lists each public definition with the mark that a public contract reaches, with one way to it, and each one without the mark
that only private ones reach. It ends with 1 where there is any. Of what no contract reaches (it serves proofs alone) nothing is
asked; --unreached lists it.
"""
import argparse
import re
import sys

sys.dont_write_bytecode = True

import answers
from specs import TOP, spec_files

TOKEN = re.compile(r"[^\W\d][\w'◌]*(?:\.[^\W\d][\w']*)*")
USE = re.compile(r"\bghost use\s+([^;]+);")


def imported(path):
    """The names that a path of a `use` line brings: the local name, the module and the name there; None for a whole module."""
    path = " ".join(path.split())
    found = re.match(r"Rattle\.(\w+)\.specs\.([\w.']+?)\.?(?:\{(.*)\}|(?: as (\w+)))?$", path)
    if not found or found.group(2).startswith(("declared", "contracts")):
        return []
    crate, module, names, alias = found.groups()
    if names is None:
        return [(alias or module.split(".")[-1], crate, module, None)]
    rows = []
    for name in filter(None, (part.strip() for part in names.split(","))):
        name, _, local = name.partition(" as ")
        rows.append(((local or name).strip(), crate, module, name.strip()))
    return rows


class Graph:
    """The definitions, by file and name, and what each cites."""

    def __init__(self, files):
        self.files = {(file.crate, file.module): file for file in files}
        self.named = {key: {one.name: one for one in file.definitions} for key, file in self.files.items()}
        # A constructor or a field stands for the definition that has it.
        self.parts = {key: {} for key in self.files}
        for key, file in self.files.items():
            for one in file.definitions:
                if {"data", "record"} & set(one.words):
                    for line in one.text[1:]:
                        part = re.match(r"(?:pub )?([^\s:({]+) +:", line)
                        if part:
                            self.parts[key].setdefault(part.group(1), one)
        self.scopes = {key: self.scope(file.imports, key) for key, file in self.files.items()}

    def find(self, crate, module, name):
        """The definition of this name; a module may end in the name of one whose parts are meant."""
        key = (crate, module)
        if key in self.files:
            return self.named[key].get(name) or self.parts[key].get(name)
        outer, _, last = module.rpartition(".")
        return self.named.get((crate, outer), {}).get(last)

    def scope(self, paths, own=None):
        """What each name means where these paths are imported: a definition, or a module."""
        found = {}
        if own:
            found.update(self.parts[own])
            found.update(self.named[own])
        for path in paths:
            for local, crate, module, name in imported(path):
                meant = (crate, module) if name is None else self.find(crate, module, name)
                if name is None and meant not in self.files:
                    meant = self.find(crate, module, "")
                if meant:
                    found[local] = meant
        return found

    def cited(self, text, scope):
        """The definitions that the text cites."""
        found = []
        for token in TOKEN.findall(text):
            first, _, rest = token.partition(".")
            meant = scope.get(first)
            if isinstance(meant, tuple):
                meant = self.find(*meant, rest.split(".")[0]) if rest else None
            if meant:
                found.append(meant)
        for name, meant in scope.items():
            if "◌" in name and not isinstance(meant, tuple) and name.replace("◌", " ").strip() in text:
                found.append(meant)
        return found

    def reached(self, starts):
        """What the starts reach: each definition with the one before it on the way, or the words of a start."""
        way, todo = {}, []
        for words, one in starts:
            if one not in way:
                way[one] = words
                todo.append(one)
        while todo:
            one = todo.pop(0)
            for other in self.cited("\n".join(one.text), self.scopes[(one.file.crate, one.file.module)]):
                if other not in way:
                    way[other] = one
                    todo.append(other)
        return way


BLOCK = re.compile(r"\b(?:impl|trait)\b[^{};]*\{")
GHOST = re.compile(r"\bghost (\w+)\b[^;]*;")


def ghosts_of(text, names):
    """What exported traits, and implementations for exported types, say in `ghost` items; but not what a type keeps inside."""
    for found in BLOCK.finditer(text):
        owner = re.sub(r"<[^>]*>", "", found.group()[:-1].split(" for ")[-1]).split("where")[0].split(":")[0].split()[-1]
        if owner in names:
            inside = text[found.end():answers.close(text, found.end() - 1)]
            for item in GHOST.finditer(inside):
                if item.group(1) not in ("use", "view", "invariant"):
                    yield f"ghost {item.group(1)} of {owner}", item.group()


def starts(graph):
    """What public contracts cite, and what anything in the sources cites."""
    public, private = [], []
    for crate in sorted((TOP / "crates").iterdir()):
        names, modules = set(), set()
        if (crate / "src" / "lib.rt").exists():
            names, modules = answers.exports(crate)
        for file in sorted((crate / "src").glob("**/*.rt")):
            raw, title = file.read_text(), str(file.relative_to(TOP))
            text = re.sub(r"//[^\n]*", "", raw)
            scope = graph.scope(USE.findall(text))
            shown = file.stem in modules or file.parent.stem in modules or file.name == "lib.rt"
            calls, _ = answers.calls_in(raw, title, names, shown)
            clauses = [(f"{call.title()} ({title})", clause) for call in calls for _, _, clause in call.clauses]
            clauses += [(f"{words} ({title})", item) for words, item in ghosts_of(text, names)]
            public += [(words, one) for words, clause in clauses for one in graph.cited(clause, scope)]
            rest = USE.sub("", re.sub(r"#!?\[[^\]]*\]", "", text))
            private += [(title, one) for one in graph.cited(rest, scope)]
    return public, private


def route(way, one):
    """The way from a public contract to the definition."""
    steps = []
    while not isinstance(one, str):
        steps.append(one.name)
        one = way[one]
    return " -> ".join([one] + steps[::-1])


def marks():
    """The definitions that are marked though public contracts reach them, those that lack the mark, and those that none reaches."""
    files = spec_files()
    graph = Graph(files)
    public, private = starts(graph)
    seen, all_seen = graph.reached(public), graph.reached(public + private)
    wrong, lacking, unreached = [], [], []
    for file in files:
        for one in filter(lambda one: one.is_public, file.definitions):
            marked = one.is_marked() or file.is_marked()
            if one in seen and marked:
                wrong.append((one, route(seen, one)))
            elif one in all_seen and one not in seen and not marked:
                lacking.append((one, route(all_seen, one)))
            elif one not in all_seen:
                unreached.append((one, ""))
    return wrong, lacking, unreached


def show(title, found):
    print(f"{title}: {len(found)}")
    for one, way in found:
        print(f"  {one.file.title()}:{one.line}: {one.name}" + (f"    {way}" if way else ""))


def main():
    parser = argparse.ArgumentParser(description=__doc__, formatter_class=argparse.RawDescriptionHelpFormatter)
    parser.add_argument("--unreached", action="store_true", help="list also what no contract reaches")
    asked = parser.parse_args()
    wrong, lacking, unreached = marks()
    show("marked Inside, and a public contract reaches it", wrong)
    show("only private contracts reach it, and it isn't marked Inside", lacking)
    if asked.unreached:
        show("no contract reaches it", unreached)
    return 1 if wrong or lacking else 0


if __name__ == "__main__":
    sys.exit(main())

#!/usr/bin/env python3
"""Writes docs/DEFINITIONS.md: an index of the public definitions in crates/*/specs, sorted by name.

Each row has the name, the file as a link, and the first sentence of the definition's comment. A definition that stands under a
mark "Inside:" (tools/inside.py says what that is) has this word before its sentence.

  tools/definitions.py           writes the page
  tools/definitions.py --check   writes nothing; names what differs, and ends with 1, where the page is another than it would write
"""
import re
import sys

sys.dont_write_bytecode = True

from specs import TOP, spec_files, write_or_check

PAGE = TOP / "docs" / "DEFINITIONS.md"


def first_sentence(comment):
    """The comment up to the full stop that ends a sentence: one before a space and a capital letter, not one of an 'e.g.'."""
    found = re.match(r"(.*?[^.\s])\.(?= [A-Z`\"'(])", comment)
    return (found.group(1) if found else comment).strip().rstrip(".")


def row(definition):
    file = definition.file
    text = first_sentence(definition.says())
    if file.is_marked() and not definition.is_marked():
        text = f"Inside: {text}".rstrip() if text else "Inside"
    link = f"[{file.crate}/{file.path.relative_to(TOP / 'crates' / file.crate / 'specs')}](../{file.title()})"
    text = text.replace("|", "\\|")
    return f"| `{definition.name}` | {link} | {text} |".replace("|  |", "| |")


def page():
    found = [definition for file in spec_files() for definition in file.definitions if definition.is_public]
    found.sort(key=lambda one: (one.name.casefold(), one.name, one.file.title()))
    head = ["# Definitions", "",
            "Made by tools/definitions.py: where each public definition of `crates/*/specs` stands, sorted by name, with the first",
            "sentence of its comment; the file has the rest. Numbers in definitions are natural numbers without a bound, and lists are",
            "plain lists. 'Inside' marks what only private calls cite.", "",
            f"{len(found)} definitions.", "",
            "| name | file in crates, below specs/ | what it is |", "|---|---|---|"]
    return "\n".join(head + [row(one) for one in found]) + "\n"


def main():
    return write_or_check(PAGE, page(), "tools/definitions.py",
                          "Writes docs/DEFINITIONS.md, an index of the public definitions in crates/*/specs.")


if __name__ == "__main__":
    sys.exit(main())

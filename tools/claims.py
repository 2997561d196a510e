#!/usr/bin/env python3
"""Checks docs/PROOFS.md against the sources, and ends with 1 where something is wrong.

- Each law (a public function without parameters and answer, with a clause) stands in a row, under its crate.
- Each call or law of a row's second column is public in its crate, and each clause in brackets is one of it.
- Each definition of a row's third column stands in some crate's specs/.
- No sentence has more than 25 words, but in a quotation, and no claim is stated twice in one table.

In the second column `grasp_x::name` is one call, and "`grasp_x`: `one`, `other`" are several; groups stand behind semicolons.
"""
import argparse
import re
import sys

sys.dont_write_bytecode = True

import answers
from specs import TOP, spec_files

PAGE = TOP / "docs" / "PROOFS.md"
MOST_WORDS = 25


def public_calls():
    """The public calls of each crate by name, with their clauses, and the types and traits; and the laws."""
    calls, laws = {}, set()
    for crate in sorted((TOP / "crates").iterdir()):
        if not (crate / "src" / "lib.rt").exists():
            continue
        names, modules = answers.exports(crate)
        known = calls.setdefault(crate.name, {name: set() for name in names})
        for file in sorted((crate / "src").glob("**/*.rt")):
            shown = file.stem in modules or file.parent.stem in modules or file.name == "lib.rt"
            raw = file.read_text()
            for call in answers.calls_in(raw, "", names, shown)[0]:
                clauses = {name for _, name, _ in call.clauses}
                known.setdefault(call.title(), set()).update(clauses)
            # A law that lib.rt doesn't hand out is one all the same.
            for call in answers.calls_in(raw, "", names, True)[0]:
                if answers.is_law(call) and call.clauses and not call.owner:
                    laws.add((crate.name, call.name))
                    known.setdefault(call.name, set()).update(name for _, name, _ in call.clauses)
    return calls, laws


def named(cell):
    """The crates and names of a row's second column, with the clauses in the brackets behind each."""
    for group in cell.split(";"):
        crate, last = None, []
        for found in re.finditer(r"`([^`]+)`|\(([^)]*)\)", group):
            if found.group(2) is not None:
                for name in last[-1:]:
                    name[2].extend(re.findall(r"`(\w+)`", found.group(2)))
                continue
            first, _, rest = found.group(1).partition("::")
            if first.startswith("grasp_"):
                crate, name = first, rest
            else:
                name = found.group(1)
            if name:
                last.append((crate, name, []))
        yield from last


def sentences(text):
    text = re.sub(r"\]\([^)]*\)", "]", text)
    for part in re.split(r"(?<=[.!?])\s+|:\s", text):
        yield part, len(re.findall(r"[^\s—–-]*\w[^\s]*", part))


def problems():
    calls, laws = public_calls()
    definitions = {one.name for file in spec_files() for one in file.definitions}
    found, seen, table, number = [], set(), set(), 0
    for number, line in enumerate(PAGE.read_text().splitlines(), 1):
        place = f"docs/PROOFS.md:{number}"
        if not line.startswith("|"):
            table = set()
            # A quotation keeps its words.
            found += [f"{place}: {count} words in a sentence: {text}" for text, count in sentences(line)
                      if count > MOST_WORDS and not line.startswith(">")]
            continue
        if line.startswith(("| claim |", "|---")):
            continue
        cells = [cell.strip() for cell in line.strip("|").split(" | ")]
        if len(cells) != 3:
            found.append(f"{place}: {len(cells)} columns")
            continue
        claim, carrier, stated = cells
        if claim in table:
            found.append(f"{place}: a second row with this claim")
        table.add(claim)
        found += [f"{place}: {count} words in a sentence: {text}" for text, count in sentences(claim) if count > MOST_WORDS]
        for crate, name, clauses in named(carrier):
            if crate is None or crate not in calls:
                found += [f"{place}: no crate {crate}"] if crate else []
                continue
            seen.add((crate, name))
            if name not in calls[crate]:
                found.append(f"{place}: no public {name} in {crate}")
                continue
            found += [f"{place}: {crate}::{name} has no clause {clause}" for clause in clauses if clause not in calls[crate][name]]
        brackets = re.sub(r"\([^)]*\)", "", stated)
        found += [f"{place}: no definition {name}" for name in re.findall(r"`([\w']+)`", brackets) if name not in definitions]
    return [f"no row has the law {crate}::{name}" for crate, name in sorted(laws - seen)] + found


def main():
    argparse.ArgumentParser(description=__doc__, formatter_class=argparse.RawDescriptionHelpFormatter).parse_args()
    found = problems()
    print("\n".join(found) if found else "docs/PROOFS.md agrees with the sources")
    return 1 if found else 0


if __name__ == "__main__":
    sys.exit(main())

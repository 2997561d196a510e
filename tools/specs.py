"""What the scripts that make or check documents share: it reads the definitions in crates/*/specs, and writes or checks a page."""
import argparse
import pathlib
import re

TOP = pathlib.Path(__file__).resolve().parent.parent
# What begins a definition: words before the name, and the name.
HEAD = re.compile(r"((?:(?:abbrev|unfoldable|pub|record|data)\s+)*)([^\s:({]+)(?=$|[\s:({])")
# Lines at the margin that begin a block whose definitions stand two places in.
BLOCKS = ("mutual", "abbrev mutual", "unfoldable mutual")


class Definition:
    """A definition: its words, the comment above it, and the lines that it takes."""

    def __init__(self, file, name, words, comment, line):
        self.file, self.name, self.words = file, name, words
        self.comment, self.line, self.text = comment, line, []

    @property
    def is_public(self):
        return "pub" in self.words

    def says(self):
        return " ".join(self.comment)

    def is_marked(self):
        return self.says().startswith("Inside:")


class SpecFile:
    """A file of definitions: its head comment, its imports and its definitions."""

    def __init__(self, path):
        self.path = path
        self.crate = path.relative_to(TOP / "crates").parts[0]
        inside = path.relative_to(TOP / "crates" / self.crate / "specs").with_suffix("")
        self.module = ".".join(inside.parts)
        self.about, self.imports, self.definitions = [], [], []
        self._read(path.read_text().splitlines())

    def title(self):
        return str(self.path.relative_to(TOP))

    def is_marked(self):
        return " ".join(self.about).startswith("Inside:")

    def _read(self, lines):
        place = 0
        while place < len(lines) and lines[place].startswith("--"):
            self.about.append(lines[place][2:].strip())
            place += 1
        comment, margin, last, current = [], 0, {}, None
        for number in range(place, len(lines)):
            line = lines[number]
            text = line.strip()
            depth = len(line) - len(line.lstrip())
            if text.startswith("--"):
                # A rule of dashes heads a part of the file, and is no definition's comment.
                comment = [] if text.startswith("-- --") else comment + [text[2:].strip()]
                continue
            if not text:
                comment = []
                continue
            if depth == 0 and re.match(r"(?:pub )?use ", text):
                self.imports.append(re.sub(r"^(?:pub )?use ", "", text))
                comment = []
                continue
            if depth == 0 and re.match(r"pub mod |ruleset |unfolding |infix", text):
                comment = []
                continue
            if depth == 0:
                margin = 2 if text in BLOCKS or text.startswith("module _") else 0
                if margin:
                    comment = []
                    continue
            found = HEAD.match(text) if depth == margin else None
            if found and found.group(1) and found.group(2) not in last:
                last[found.group(2)] = Definition(self, found.group(2), found.group(1).split(), comment, number + 1)
                self.definitions.append(last[found.group(2)])
            if found:
                current = last.get(found.group(2), current)
            if current:
                current.text.append(text)
            comment = []


def spec_files():
    """Each file of definitions of each crate, folders in specs/ too, in the order of their paths."""
    return [SpecFile(path) for path in sorted((TOP / "crates").glob("*/specs/**/*.antt")) if path.name != "Lib.antt"]


def differences(old, new):
    """What a page has that it shouldn't, and what it lacks."""
    old, new = old.splitlines(), new.splitlines()
    had, wanted = set(old), set(new)
    found = [f"not to be there: {line}" for line in old if line not in wanted]
    found += [f"missing: {line}" for line in new if line not in had]
    return found or ["the lines stand in another order, or more than once"]


def write_or_check(page, text, tool, about):
    """Writes the page; with --check it writes nothing, and says what differs. It gives the status to end with."""
    parser = argparse.ArgumentParser(description=about)
    parser.add_argument("--check", action="store_true",
                        help="write nothing; where the page isn't what the sources give, name what differs and end with 1")
    if not parser.parse_args().check:
        page.write_text(text)
        return 0
    old = page.read_text() if page.exists() else ""
    if old == text:
        return 0
    print(f"{page.relative_to(TOP)} isn't what {tool} makes:")
    print("\n".join(differences(old, text)))
    return 1

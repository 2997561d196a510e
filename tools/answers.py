#!/usr/bin/env python3
"""Writes docs/ANSWERS.md: each public call of each library with the answers that it has besides the plain one, and the clauses
of its contract that say when such an answer comes and what stands after it.

It is read from the sources: the items that a crate's lib.rt makes public, and the clauses behind their signatures. With --check
it writes nothing, names what differs, and ends with 1 where the document is another than the sources give.
"""
import re
import sys

sys.dont_write_bytecode = True

from specs import TOP, write_or_check

PAGE = TOP / "docs" / "ANSWERS.md"
ORDER = [line.split(":")[0].split()[0] for line in (TOP / "crates.txt").read_text().splitlines()
         if line and not line.startswith("#")]
# A clause that begins with one of these speaks of the plain answer alone.
PLAIN = re.compile(r"(IfOk|OnOk|IfSome|OnSome|IsOk|IsSome)\b|result ≡ (true|Status\.Ok)\b")
# In a clause, one of these speaks of every answer that isn't the plain one.
OTHER = re.compile(r"\b(OnErr|IfErr|IsErr|is_err|IsErrOf|OnNone|IsNone|is_none|IfNone)\b")
# Enumerations that are values, of which no variant is an answer by itself.
VALUES = {"Address", "ApiRefused", "Call", "FloatBits", "Input", "Item", "Kind", "Locator", "Message", "Output", "Proto"}


def blank(text):
    """The text with its comments, strings and character literals made blank, of the same length."""
    rule = re.compile(r'//[^\n]*|/\*.*?\*/|b?r#".*?"#|b?"(?:\\.|[^"\\])*"|b?\'(?:\\[^\n]{1,10}?|[^\'\\\n])\'', re.S)
    return rule.sub(lambda found: re.sub(r"[^\n]", " ", found.group()), text)


def close(text, start):
    """The place behind the bracket that closes the one at the start."""
    pairs, depth = {"(": ")", "{": "}", "[": "]"}, []
    for place in range(start, len(text)):
        letter = text[place]
        if letter in pairs:
            depth.append(pairs[letter])
        elif depth and letter == depth[-1]:
            depth.pop()
            if not depth:
                return place + 1
    return len(text)


class Call:
    """A public function or method with its clauses."""

    def __init__(self, owner, name, params, answer, clauses, file):
        self.owner, self.name, self.params, self.answer = owner, name, params, answer
        self.clauses, self.file = clauses, file

    def title(self):
        return f"{self.owner}::{self.name}" if self.owner else self.name


CLAUSE = re.compile(r"\s*(?:#\[[^\n]*\]\s*)?(requires|ensures|ghost|where)\b\*?\s*([a-z_0-9]*)\s*:?\s*")


def clauses_at(text, raw, place):
    """The clauses from here on, and the place behind them."""
    clauses = []
    while True:
        found = CLAUSE.match(text, place)
        if not found:
            return clauses, place
        if found.group(1) == "where":
            ends = [text.find(word, found.end()) for word in ("requires", "ensures", "{", ";")]
            place = min(end for end in ends if end >= 0)
            continue
        end = close(text, found.end())
        star = "*" if "*" in found.group() else ""
        clauses.append((found.group(1) + star, found.group(2), " ".join(raw[found.end() + 1:end - 1].split())))
        place = end


def answer_at(text, place):
    """The type of the answer, and the place behind it."""
    found = re.compile(r"\s*->\s*").match(text, place)
    if not found:
        return "()", place
    start = place = found.end()
    depth = 0
    while place < len(text):
        rest = text[place:]
        if depth == 0 and (rest[0] in "{;" or re.match(r"\s(requires|ensures|ghost|where)\b", rest)):
            break
        depth += {"<": 1, "(": 1, "[": 1, ")": -1, "]": -1}.get(rest[0], 0)
        if rest[0] == ">" and text[place - 1] != "-":
            depth -= 1
        place += 1
    return " ".join(text[start:place].split()), place


ITEM = re.compile(r"(?P<shown>\bpub(?:\([a-z]+\))?\s+)?(?:const\s+|final\s+|unsafe\s+)*\b(?P<kind>fn|impl|trait|mod|enum)\b")


def calls_in(raw, file, exported, every):
    """The public calls of a file, and its enumerations with their variants."""
    text = blank(raw)
    calls, enums, owners, place = [], {}, [], 0
    while True:
        found = ITEM.search(text, place)
        owners = [owner for owner in owners if owner[2] > (found.start() if found else len(text))]
        if not found:
            return calls, enums
        shown = (found.group("shown") or "").strip() == "pub"
        kind, start = found.group("kind"), found.end()
        if kind == "fn":
            name = re.compile(r"\s*(\w+)").match(text, start)
            opening = text.find("(", name.end())
            params_end = close(text, opening)
            answer, behind = answer_at(text, params_end)
            clauses, behind = clauses_at(text, raw, behind)
            body = re.compile(r"\s*").match(text, behind).end()
            place = close(text, body) if text[body:body + 1] == "{" else body + 1
            owner = owners[-1] if owners else None
            is_public = (shown and (owner is None and (every or name.group(1) in exported)
                                    or owner is not None and owner[0] == "type" and (every or owner[1] in exported))
                         or owner is not None and owner[0] in ("trait", "kept") and (every or owner[1].split(" for ")[-1] in exported))
            if is_public:
                params = " ".join(raw[opening + 1:params_end - 1].split()).rstrip(",")
                calls.append(Call(owner[1] if owner else "", name.group(1), params, answer, clauses, file))
            continue
        opening = text.find("{", start)
        ending = text.find(";", start)
        if kind == "mod":
            if opening < 0 or 0 <= ending < opening:
                place = ending + 1
                continue
            name = text[start:opening].strip()
            place = close(text, opening) if name == "tests" else opening + 1
            continue
        head = " ".join(text[start:opening].split())
        end = close(text, opening)
        if kind == "enum":
            name = re.match(r"\w+", head).group()
            inside, depth, variants, word = text[opening + 1:end - 1], 0, [], True
            for piece in re.finditer(r"#\[[^\]]*\]|\w+|[({\[\])},]", inside):
                token = piece.group()
                if token.startswith("#["):
                    continue
                if token in "({[":
                    depth += 1
                elif token in ")}]":
                    depth -= 1
                elif token == "," and depth == 0:
                    word = True
                elif depth == 0 and word and re.match(r"[A-Z]", token):
                    variants.append(token)
                    word = False
            enums[name] = variants
            place = end
            continue
        head = re.sub(r"^<[^{]*?>\s+(?=\w)", "", head) if head.startswith("<") else head
        names = [re.match(r"\w+(?:::\w+)*", part.strip().lstrip("&")) for part in re.split(r"\bfor\b", head)]
        names = [name.group().split("::")[-1] for name in names if name]
        if kind == "trait":
            owners.append(("trait", names[0] if names else "", end))
        elif " for " in f" {head} " and len(names) > 1:
            owners.append(("kept", f"{names[0]} for {names[1]}", end))
        else:
            owners.append(("type", names[0] if names else "", end))
        place = opening + 1


def exports(crate):
    """The names that the crate makes public, and the modules of which it makes all public."""
    text = blank((crate / "src" / "lib.rt").read_text())
    names, modules = set(), set(re.findall(r"\bpub mod (\w+)", text))
    for used in re.findall(r"\bpub use ([^;]+);", text):
        used = " ".join(used.split())
        names |= set(re.findall(r"\w+", used[used.rfind("{"):])) if "{" in used else {used.split("::")[-1]}
    names |= set(re.findall(r"\bpub (?:struct|enum|trait|fn) (\w+)", text))
    return names, modules


def parts_of(answer):
    """The arguments of a generic type."""
    inside = answer[answer.find("<") + 1:answer.rfind(">")]
    parts, depth, last = [], 0, 0
    for place, letter in enumerate(inside):
        depth += {"<": 1, "(": 1, "[": 1, ">": -1, ")": -1, "]": -1}.get(letter, 0)
        if letter == "," and depth == 0:
            parts.append(inside[last:place].strip())
            last = place + 1
    return parts + [inside[last:].strip()]


def others(answer, enums):
    """The answers besides the plain one, as they are written."""
    name = re.match(r"[\w:]+", answer)
    name = name.group().split("::")[-1] if name else answer
    if name == "Option":
        return ["None"]
    if name == "Result":
        parts = parts_of(answer)
        good, bad = parts[0], parts[-1]
        bad_name = re.match(r"[\w:]*", bad).group().split("::")[-1]
        if bad.endswith("::Error") or bad == "Self::Error":
            bad_name = bad
        variants = [bad_name] if bad_name in VALUES else enums.get(bad_name, [bad_name])
        found = [f"Err({variant})" for variant in variants]
        if len(parts) == 1:
            found = ["Err"]
        inner = [] if good.startswith(("(", "&")) else [part for part in others(good, enums)]
        return [f"Ok({part})" for part in inner] + found
    variants = [] if name in VALUES else enums.get(name, [])
    return [variant for variant in variants if variant != "Ok"] if len(variants) > 1 else []


def is_plain(clause):
    return bool(PLAIN.match(clause))


def sorted_clauses(call):
    """The clauses that say when another answer comes, and those that say what stands after it."""
    when, after = [], []
    for kind, name, clause in call.clauses:
        words = name or "its clause"
        if kind == "ensures*":
            after.append((words, clause))
        if kind != "ensures" or (is_plain(clause) and not OTHER.search(clause)):
            continue
        if re.search(r"\.(new|exit)\b", clause):
            after.append((words, clause))
        if "result" in clause and not re.match(r"result\.", clause):
            when.append((words, clause))
    return when, after


def names_of(clauses):
    return ", ".join(f"`{name}`" if name != "its clause" else name for name, _ in clauses)


def changes(call):
    return "&mut" in call.params


def row(call, enums):
    when, after = sorted_clauses(call)
    stands = names_of(after) if after else ("**no clause**" if changes(call) else "nothing changes")
    answers = ", ".join(f"`{answer}`" for answer in others(call.answer, enums))
    return f"| `{call.title()}` ({call.file}) | {answers} | {names_of(when) or 'free'} | {stands} |"


def read_crates():
    crates, shared = [], {}
    for name in ORDER:
        crate = TOP / "crates" / name
        if not (crate / "src" / "lib.rt").exists():
            continue
        names, modules = exports(crate)
        calls, own = [], {}
        for file in sorted((crate / "src").glob("**/*.rt")):
            if file.stem == "tests" or "laws" in file.stem:
                continue
            shown = file.stem in modules or file.parent.stem in modules
            found, some = calls_in(file.read_text(), str(file.relative_to(crate)), names, shown)
            calls += found
            own.update(some)
        for enum in own:
            shared.setdefault(enum, own[enum])
        crates.append((name, calls, own))
    return [(name, calls, {**shared, **own}) for name, calls, own in crates]


def is_law(call):
    """A law has no parameter and no answer: its contract is what it says."""
    return not call.params and call.answer == "()"


def page():
    out, open_calls, count, with_others = [], [], 0, 0
    for name, calls, enums in read_crates():
        calls = [call for call in calls if not is_law(call) and not (" for " in call.owner and not call.clauses)]
        if not calls:
            continue
        rows = [call for call in calls if others(call.answer, enums)]
        count, with_others = count + len(calls), with_others + len(rows)
        open_calls += [f"`{name}`: `{call.title()}`" for call in rows if changes(call) and not sorted_clauses(call)[1]]
        out += [f"## {name}", ""]
        if rows:
            out += ["| call | other answers | said to come by | what stands after |", "|---|---|---|---|"]
            out += [row(call, enums) for call in rows] + [""]
        plain = [f"`{call.title()}`" for call in calls if call not in rows]
        if plain:
            out += ["One answer: " + ", ".join(plain) + ".", ""]
    head = ["# Answers", "",
            "Made by tools/answers.py from the sources: each public call of each library, with the answers that it has besides the",
            "plain one, and the names of the clauses of its contract that say when such an answer comes and what stands after it. A",
            "clause without a name is called 'its clause'. A clause of the plain answer alone isn't named. 'Free' is an answer of",
            "which no clause says when it comes, as running out of memory; 'nothing changes' is said of a call that is lent nothing which it",
            "may change. The methods of a trait are those that its implementations keep; one with clauses of its own is named as",
            "'Trait for Type'.", "",
            f"{count} calls, of which {with_others} have other answers."]
    if open_calls:
        head += ["", "Calls that may change what they are lent, and have no clause on what stands after another answer:", ""]
        head += [f"- {call}" for call in open_calls]
    return "\n".join(head + [""] + out).rstrip() + "\n"


def main():
    return write_or_check(PAGE, page(), "tools/answers.py",
                          "Writes docs/ANSWERS.md: each public call of each library with the answers that it has besides the plain one.")


if __name__ == "__main__":
    sys.exit(main())

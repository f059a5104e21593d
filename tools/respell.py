#!/usr/bin/env python3
"""Brings the repository's own definitions and lemmas to the spelling of today's Rattle: words in snake case, types and modules in camel case.

usage: python3 tools/respell.py          at the top, once, right after the kit's port.py

A name is one that an .antt file of crates/ declares: a definition, a lemma, a record's field, a case of a data type. Dashes and inner capitals of a
name that begins with a small letter become underscores (`entryOf` is `entry_of`, `any-more` is `any_more`). Names that begin with a capital are types
and stay, as do names of Rattle's own making in a proof by hand (what is declared with a type of its `tie`), operators, and every name that a file
imports from elsewhere. The names are turned in .antt files, in clauses and ghost items of .rt files, in must-fail edits and, within backticks, in
the comments and the pages. It stops before it writes where two names of a file would fall together.
"""

import os
import re
import sys

ROOT = os.getcwd()
CRATES = os.path.join(ROOT, "crates")
DECLARED = re.compile(r"^( *)(?:(?:abbrev|opaque|unfoldable|pub|instance)\s+)*(?:(record|data|ruleset)\s+)?([^\s:(){},.=|«»λ;]+)\s*(?:[({].*)?:(?:\s+(.*))?$")
TOKEN = re.compile(r"[^\s(){}\[\],.;:=`\"«»λ×→≡≤<>*/&|\\⌜⌝∙◌]+")
PLAIN = re.compile(r"[a-z][A-Za-z0-9_'-]*$")
IMPORT = re.compile(r"^\s*(?:pub\s+)?(?:ghost\s+)?use\s+([^\s{]+?)(?:\.\{([^}]*)\})?\s*(?:as\s+\S+)?;?\s*$")
# Names that would fall together with a definition of the same words: a lemma gets the ending `_lem`, a field a name of its own.
LEMMAS = """
limit-in-range in-or-out other-act with-points chapter-at is-earlier is-candidate same_line eq-lines end-entry place-fits entry-rules
is-reached run-rules table-rules carried-point found-parts was-open by-table run-after run-answer is_open no-more are-stages state-weight
carry-step is-silent states-after value-lines four-moves told-by dead-recipe idle-feeding idle-behind end-earlier one_line nest-recipe
nest-cell no-better half-way turned-else
""".split()
GIVEN = {
    "failedDigit": "digit_of_failed",
    "in-range": "is_in_range",
    "is-marked": "found_is_marked",
    "none-overfull": "none_is_overfull",
    "never-overfull": "is_never_overfull",
    "never-shut": "is_never_shut",
}
GIVEN |= {it: it.replace("-", "_") + "_lem" for it in LEMMAS}


def texts(*endings):
    for folder, folders, files in os.walk(CRATES):
        folders[:] = sorted(it for it in folders if it not in ("out", "target"))
        for name in sorted(files):
            if name.endswith(endings):
                yield os.path.join(folder, name)


def read(path):
    with open(path, encoding="utf-8") as it:
        return it.read()


def new_name(name):
    if name in GIVEN:
        return GIVEN[name]
    turned = re.sub(r"(?<=[a-z0-9'])([A-Z])", lambda it: "_" + it[1].lower(), name)
    turned = re.sub(r"-([A-Z])", lambda it: "_" + it[1].lower(), turned)
    return turned.replace("-", "_")


def declared():
    found = set()
    for path in texts(".antt"):
        for line in read(path).splitlines():
            line = re.sub(r"(^|\s)--.*", "", line)
            it = DECLARED.match(line)
            if not it or (it[4] or "").startswith("tie."):
                continue
            if PLAIN.match(it[3]):
                found.add(it[3])
    return found


def imports(text):
    """The names that a file takes from elsewhere than this repository."""
    ours = {f"Rattle.{it}." for it in os.listdir(CRATES)}
    found = set()
    for line in text.splitlines():
        it = IMPORT.match(line)
        if it and it[2] and not it[1].startswith(tuple(ours)):
            found |= {w.split(" as ")[0].strip() for w in it[2].split(",")}
    return found


def turn_part(text, names):
    """The path of an import names modules, and stays."""
    it = re.match(r"\s*(?:pub\s+)?(?:ghost\s+)?use\s+[^\s{]+", text)
    at = it.end() if it else 0

    def turned(it):
        new = names.get(it[0], it[0])
        # No field is a lemma: what follows a dot so is a step of a function's proof.
        return it[0] if new.endswith("_lem") and it.start() and it.string[it.start() - 1] == "." else new

    return text[:at] + TOKEN.sub(turned, text[at:])


class Known(dict):
    """For edits and pages, which port.py leaves alone: also what it turned elsewhere."""

    def __init__(self, names, words):
        super().__init__(names)
        self.words = words

    def get(self, word, other):
        new = new_name(word)
        return super().get(word, new if new in self.words and PLAIN.match(word) else other)


def turn_quoted(text, names):
    return re.sub(r"`[^`\n]*`", lambda it: turn_part(it[0], names), text)


def turn(text, names, mark):
    """Code is turned whole, a comment behind the mark only within backticks."""
    lines = []
    for line in text.split("\n"):
        at = re.search(r"(^|\s)" + mark, line)
        code, said = (line[: at.start()], line[at.start() :]) if at else (line, "")
        lines.append(turn_part(code, names) + turn_quoted(said, names))
    return "\n".join(lines)


def main():
    names = {it: new_name(it) for it in declared()}
    names = {old: new for old, new in names.items() if old != new}
    news, clashes = {}, []
    for old, new in names.items():
        news.setdefault(new, []).append(old)
    written = {}
    for path in texts(".antt", ".rt"):
        text = read(path)
        foreign = imports(text)
        here = {old: new for old, new in names.items() if old not in foreign}
        if path.endswith(".rt"):
            here = {old: new for old, new in here.items() if not old.islower() or "-" in old}
        words = set(TOKEN.findall(re.sub(r"(^|\s)(--|//).*", "", text)))
        for old in words & here.keys():
            others = {it for it in news[here[old]] if it != old} | {here[old]} - here.keys()
            if path.endswith(".rt") or here[old] in path.split(os.sep):
                others = set()  # a function of src/ and the definition of what it answers may have one name
            for other in words & others:
                clashes.append(f"{os.path.relpath(path, ROOT)}: {old} and {other} would both be {here[old]}")
        written[path] = turn(text, here, "--" if path.endswith(".antt") else "//")
    if clashes:
        print("\n".join(clashes))
        return 1
    names = Known(names, {names.get(it, it) for it in declared()})
    for path in texts(".edit"):
        text = read(path)
        lines = [turn_part(it, names) if re.match(r"(old|new): ", it) else turn_quoted(it, names) for it in text.split("\n")]
        written[path] = "\n".join(lines)
    for folder in (ROOT, os.path.join(ROOT, "docs"), os.path.join(ROOT, "docs", "changes")):
        for name in sorted(os.listdir(folder)):
            if name.endswith(".md"):
                path = os.path.join(folder, name)
                written[path] = turn_quoted(read(path), names)
    changed = 0
    for path, text in written.items():
        if text != read(path):
            changed += 1
            with open(path, "w", encoding="utf-8") as it:
                it.write(text)
    print(f"{len(names)} names turned, {changed} files changed")
    return 0


if __name__ == "__main__":
    sys.exit(main())

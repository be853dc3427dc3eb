#!/usr/bin/env python3
"""Brings the names of definitions and lemmas to snake case: each part of a name, parts being joined by dashes, that
begins with a small letter and has a capital, as firstOutside-le, which becomes first_outside-le.

usage: tools/snake_names.py          in the repository's top folder, once: rewrites specs/, proofs/, clauses and pages
       tools/snake_names.py --list   only prints each old name, its new one, and where a new name stood already

The names are those that a file of specs/ or proofs/ declares: a definition, a lemma, a field, a constructor, a
variable of one of them, and what an import names anew. Functions of src/ keep theirs.
"""
import re
import sys
from pathlib import Path

NAME = r"[^\s(){}\[\],;.:λ∷\"`'|*/]+"
DECLARED = re.compile(rf"^\s*(?:abbrev |unfoldable )?(?:pub )?(?:data |record |ruleset )?({NAME})\s+(?:[({{].*)?(?::|where|=)", re.M)
BOUND = re.compile(rf"[({{]({NAME}(?: {NAME})*) :")
RENAMED = re.compile(rf" as ({NAME})")
LET = re.compile(rf"\blet ({NAME}) ")
# Constructors with dashes, and a lemma named after what the library names otherwise now.
OTHERS = {
    "active-as": "active_as", "withdrawn-as": "withdrawn_as", "no-calls": "no_calls",
    "accepts-allele": "accepts_allele", "refuses-allele": "refuses_allele", "getD-folded": "get_or-folded",
}
UNWRITTEN = {
    "edition-on": "edition_on", "records-on": "records_on", "journal-on": "journal_on", "pool-on": "pool_on",
    "record_of": "of_record", "status-of": "of_status",
}
# A lemma that would have its function's name.
LEMMA = {"crates/image/proofs/WellFormed.antt": {"laid_out": "laid_out_lem"}}
STRING = re.compile(r'"(?:[^"\\]|\\.)*"')
TOKEN = re.compile(NAME)


def is_camel(part):
    return re.fullmatch(r"[a-z][A-Za-z0-9_]*[A-Z][A-Za-z0-9_]*", part) is not None


def snake(part):
    return re.sub(r"(?<=[A-Za-z0-9])(?=[A-Z][a-z])|(?<=[a-z0-9])(?=[A-Z])", "_", part).lower()


def renamed(name):
    return "-".join(snake(part) if is_camel(part) else part for part in name.split("-"))


def files(*patterns):
    return [path for pattern in patterns for path in sorted(Path(".").glob(pattern))
            if "out" not in path.parts and "target" not in path.parts]


def names():
    found = set()
    for path in files("crates/*/specs/**/*.antt", "crates/*/proofs/**/*.antt"):
        text = STRING.sub("", path.read_text("utf-8"))
        found.update(DECLARED.findall(text) + RENAMED.findall(text) + LET.findall(text))
        found.update(name for names in BOUND.findall(text) for name in names.split())
    for path in files("crates/*/src/**/*.rt"):
        ghosts = "\n".join(re.findall(r"^ghost use [^;]*;", path.read_text("utf-8"), re.M))
        found.update(RENAMED.findall(ghosts))
    return {name: renamed(name) for name in found if renamed(name) != name and name not in OTHERS}


def rewritten(text, new):
    """The text with each name replaced, also as a part of a longer name, but for what stands in quotes."""
    parts = {old: name for old, name in new.items() if "-" not in old}

    def one(match):
        token = match.group(0)
        return new.get(token) or "-".join(parts.get(part, part) for part in token.split("-"))

    pieces, at = [], 0
    for quoted in STRING.finditer(text):
        pieces += [TOKEN.sub(one, text[at:quoted.start()]), quoted.group(0)]
        at = quoted.end()
    return "".join(pieces + [TOKEN.sub(one, text[at:])])


def main():
    new = names()
    every = files("crates/*/specs/**/*.antt", "crates/*/proofs/**/*.antt", "crates/*/src/**/*.rt", "crates/*/must-fail/*.edit")
    if sys.argv[1:] == ["--list"]:
        used = {}
        for path in every:
            for token in TOKEN.findall(STRING.sub("", path.read_text("utf-8"))):
                used.setdefault(token, path)
        for old, name in sorted(new.items()):
            print(old, name, f"stands already, as in {used[name]}" if name in used else "")
        return
    for path in every + files("README.md", "CHANGELOG.md", "docs/*.md", "tests/*.py"):
        if path.name in ("PORT.md", "PORT-OTHER.md"):
            continue
        text = path.read_text("utf-8")
        more = UNWRITTEN if path.match("crates/effects/proofs/*") else LEMMA.get(str(path), {})
        first = text if path.suffix == ".md" else rewritten(text, {**OTHERS, **more})
        after = rewritten(first, new)
        if after != text:
            path.write_text(after, "utf-8")


main()

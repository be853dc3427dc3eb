"""Counts the places of docs/DESIGN-PASS.md in crates/*/src of the folder that it is run in.

usage: design_counts.py [--list]

Each count is of what its line says; --list prints the places too. What is a matter of reading (twins that differ in more
than names, conversions without a tell-tale word) stands in the page itself.
"""
import re
import sys
from collections import defaultdict
from pathlib import Path

KEYWORDS = set("fn pub let mut if else return while for in match as true false".split())


def sources():
    for path in sorted(Path("crates").glob("*/src/*.rt")):
        text = re.sub(r"//[^\n]*", "", path.read_text("utf-8"))
        yield path, text


def found(pattern):
    return [f"{path}: {' '.join(m.group(0).split())}" for path, text in sources() for m in re.finditer(pattern, text, re.M)]


def functions():
    """Each function's file, name, parameters, clauses and body."""
    head = re.compile(r"^[ ]*(?:pub )?(?:extern \"C\" )?fn (\w+)(?:<[^(]*>)?\(([^)]*)\)((?:\[[^\]]*\]|[^{;])*?)(?=\{|requires|ensures)", re.M)
    for path, text in sources():
        for m in head.finditer(text):
            end = text.find("\n}", m.end())
            whole = text[m.end() : end if end > 0 else len(text)]
            start = re.search(r"^ *\{$", whole, re.M)
            clauses, body = (whole[: start.start()], whole[start.end() :]) if start else ("", whole)
            yield path, m.group(1), m.group(2), clauses, body


def result_enums():
    places = []
    for path, text in sources():
        for m in re.finditer(r"^(?:pub )?enum (\w+) \{(.*?)^\}", text, re.M | re.S):
            variants = re.findall(r"^    (\w+)(.?)", m.group(2), re.M)
            bare = [name for name, follows in variants if follows == ","]
            if "Refused" in dict(variants) or (len(variants) == 2 and len(bare) == 1):
                places.append(f"{path}: enum {m.group(1)}")
    return places


def twins():
    shapes = defaultdict(list)
    for path, name, _, _, body in functions():
        words = re.findall(r"\w+|[^\w\s]", body)
        shape = " ".join(w if w in KEYWORDS else "0" if w[0].isdigit() else "_" if re.match(r"\w", w) else w for w in words)
        if len(words) >= 16:
            shapes[shape].append(f"{path}: {name}")
    return [", ".join(group) for group in shapes.values() if len(group) > 1]


def repeated(facts):
    places = defaultdict(set)
    for path, name, parameters, clauses, _ in functions():
        for fact in facts(parameters, clauses):
            places[fact].add(f"{path}: {name}")
    return [f"{fact} ({len(at)})" for fact, at in sorted(places.items()) if len(at) > 2]


def needs(parameters, clauses):
    for clause in re.findall(r"requires(?: \w+)? \{(.*?)\}\s*$", clauses, re.M | re.S):
        clause = re.sub(r"\.(now|old)\b", "", " ".join(clause.split()))
        yield from (fact.strip("()") if " × " in clause else fact for fact in clause.split(" × "))


def together(parameters, clauses):
    each = [" ".join(p.split()) for p in parameters.split(",") if ":" in p]
    for i in range(len(each) - 2):
        yield "; ".join(each[i : i + 3])


COUNTS = (
    ("1 enums of the shape of Option or Result", result_enums),
    ("1 numbers and truth values for kinds and refusals", lambda: found(
        r"const [A-Z_]+: (?:u64 = \d{1,2}|bool = \w+);|const (?:IN)?ACTIVE: usize = \d;")),
    ("1 truth values beside a value, or as a parameter", lambda: found(r"\b\w+: bool\b(?! =)")),
    ("1 answers that hand a refusal on by a match", lambda: found(r"\w+(?:::\w+)?\(why\) => \w+(?:::\w+)?\(why\)")),
    ("2 groups of functions of one shape", twins),
    ("3 loops that count by hand", lambda: found(r"^ *while [^\n]*|for \w+ in 0\.\.[^{]*len\(\)[^\n]*")),
    ("4 words for what std has", lambda: found(
        r"fn (?:smaller|larger|beyond|wide|equal|add|copy\w*|flat_\w+|is_unchanged|flipped|between|big_sigma_\w|small_sigma_\w"
        r"|refused|moved|outcome|written|entered_as)\b")),
    ("5 facts required by three functions or more", lambda: repeated(needs)),
    ("5 three parameters in a row of three functions or more", lambda: repeated(together)),
    ("7 a truth value that chooses what runs", lambda: found(r"\b(?:LETTERS|RESIDUES)\)|if letters\b")),
)

for name, places in COUNTS:
    print(f"{name}: {len(places())}")
    if "--list" in sys.argv:
        print("\n".join(f"    {place}" for place in places()))

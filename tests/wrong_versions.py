"""Makes docs/WRONG-VERSIONS.md of the comments in crates/*/must-fail/*.edit, and holds them to the tree.

usage: wrong_versions.py > docs/WRONG-VERSIONS.md

An edit says in its comments which call's promise it breaks (`# call:`), which sentences of docs/DEMANDS.md (`# breaks:`,
a line each) and on which input (`# input:`, INPUT: WRONG for RIGHT; lines after it that begin `#   ` go on). Every call
of docs/CALLS.md has two edits at least, every function of include/fearnavult.h one, and so has every version to be ruled
out and every mistake to be shut out. What an edit replaces stands in its file once.
"""
import re
import sys
from collections import defaultdict
from pathlib import Path
from textwrap import fill
from typing import NamedTuple

WIDTH = 112
LINK = re.compile(r"\[([^]]*)\]\[\w+\]")
HEAD = """# Wrong versions

Versions of the code, or of what it promises, that the prover has to refuse: crates/NAME/must-fail/LABEL.edit, written
NAME/LABEL. The gate tries each one. tests/wrong_versions.py makes this page of the comments that they begin with;
[CONTRIBUTING.md](CONTRIBUTING.md) says how to write one.

`running_digest::feed`, `running_digest::finish` and their C exports hand on what the calls of `sequence_identifier`
answer. So the wrong versions in `running_digest`, and finish's in `fearnavult`, keep the code and promise something else;
the others of these calls change what stands below.
"""


class Edit(NamedTuple):
    name: str
    call: str
    breaks: tuple
    input: str


def fail(*words):
    sys.exit("wrong versions: FAILED: " + " ".join(words))


def values(comments, key):
    return [line.removeprefix(f"{key}: ") for line in comments if line.startswith(f"{key}: ")]


def edit(path):
    lines = path.read_text("utf-8").splitlines()
    comments = re.sub(r"\n {2,}", " ", "\n".join(line[2:] for line in lines if line.startswith("# "))).splitlines()
    name = f"{path.parts[1]}/{path.stem}"
    calls, breaks, inputs = (values(comments, key) for key in ("call", "breaks", "input"))
    if len(calls) != 1 or not breaks or len(inputs) != 1 or len(comments) != 2 + len(breaks):
        fail(name, "needs one line `# call:`, some `# breaks:` and one `# input:`, and no other comment")
    if not re.search(r": .+ for .+", inputs[0]):
        fail(name, "does not say its input as INPUT: WRONG for RIGHT")
    fits(path, lines)
    return Edit(name, calls[0], tuple(breaks), inputs[0])


def fits(path, lines):
    """Ends the program where a text to be replaced does not stand in its file once."""
    texts, file, old = {}, "", ""
    for line in lines:
        key, _, value = line.partition(": ")
        if key == "file":
            file = value
            texts.setdefault(file, Path("crates", path.parts[1], file).read_text("utf-8"))
        elif key == "old":
            old = value
        elif line.startswith("new:"):
            if texts[file].count(old) != 1:
                fail(str(path), f"replaces what stands {texts[file].count(old)} times in {file}: {old}")
            texts[file] = texts[file].replace(old, line.removeprefix("new:").removeprefix(" "))


def rows(document, *headings):
    """The cells of the rows of a document's tables whose first column has such a heading."""
    heading = ""
    for line in Path(document).read_text("utf-8").splitlines():
        cells = [LINK.sub(r"\1", cell.strip().replace("`", "")) for cell in line.strip("|").split(" | ")]
        if not line.startswith("|"):
            heading = ""
        elif not heading:
            heading = cells[0]
        elif heading in headings and not cells[0].startswith("---"):
            yield cells


def first_cells(*headings):
    return [cells[0] for cells in rows("docs/DEMANDS.md", *headings)]


def calls_named():
    """The calls of docs/CALLS.md, whose second column has just the functions of the header."""
    calls = list(rows("docs/CALLS.md", "call"))
    in_c = {cells[1] for cells in calls} - {"none"}
    if in_c != set(exports()):
        fail("docs/CALLS.md and include/fearnavult.h differ in", ", ".join(sorted(in_c ^ set(exports()))))
    return [cells[0] for cells in calls]


def exports():
    return re.findall(r"\b(fv_\w+)\(", re.sub(r"(?s)/\*.*?\*/", "", Path("include/fearnavult.h").read_text("utf-8")))


def grouped(edits, keys):
    groups = defaultdict(list)
    for one in edits:
        for key in keys(one):
            groups[key].append(one)
    return groups


def require(groups, names, least):
    for name in names:
        if len(groups[name]) < least:
            fail(f"{name} has {len(groups[name])}, and needs {least}")


def item(text):
    return fill(text, WIDTH, initial_indent="- ", subsequent_indent="  ", break_long_words=False, break_on_hyphens=False)


def page(by_sentence, sentences, by_call, calls):
    yield HEAD
    yield "## By sentence\n\nThe sentences are those of [DEMANDS.md](DEMANDS.md), in its order.\n"
    for sentence in sentences:
        if by_sentence[sentence]:
            yield item(f"**{sentence}**: " + ", ".join(one.name for one in by_sentence[sentence]))
    yield "\nThese have none: each is a definition, a law or a computed example, or a type rules the mistake out.\n"
    for sentence in sentences:
        if not by_sentence[sentence]:
            yield item(sentence)
    yield "\n## By call\n\nEach with an input, and what is answered or written there for what is right.\n"
    for call in calls:
        yield f"### `{call}`\n"
        yield from (item(f"{one.name}. {one.input}") for one in by_call[call])
        yield ""


def main():
    edits = [edit(path) for path in sorted(Path("crates").glob("*/must-fail/*.edit"))]
    sentences = [*first_cells("sentence"), *first_cells("version"), *first_cells("mistake")]
    by_sentence, by_call = grouped(edits, lambda one: one.breaks), grouped(edits, lambda one: (one.call,))
    for one in edits:
        if unknown := set(one.breaks) - set(sentences):
            fail(one.name, "breaks what docs/DEMANDS.md does not have:", "; ".join(sorted(unknown)))
    calls = calls_named()
    named = [*calls, *exports()]
    require(by_call, calls, 2)
    require(by_call, exports(), 1)
    require(by_sentence, [*first_cells("version"), *first_cells("mistake")], 1)
    others = sorted(set(by_call) - set(named))
    print("\n".join(page(by_sentence, sentences, by_call, [*named, *others])).rstrip())
    print(f"wrong versions: {len(edits)}, of {len(by_call)} calls and {len(sentences)} sentences", file=sys.stderr)


main()

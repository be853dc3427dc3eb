"""Files and command lines to try: a scenario is a folder's files, and the commands that are given in it one after the
other. A command is its words, or a pair of its words and its standard input.
"""
from itertools import product
from typing import NamedTuple

from started import script, words

import model
from program import FOLDER
from register import ACTIVE, INACTIVE, Record, Register, laid

REPEAT = b"TCAGCAGCAGT"
CAG = b">chr1 a repeat\nTCAGCAGCAGT\n"
OTHER = b">chr1\nTCAGCAGCAGA\n"
FOREIGN = b">chr1\nTCAG+AGCAGT\n"
PROTEIN = b">prot ends in a stop\nMKTAYIAKQR*\n"
SMALL = "--records 4 --journal 6 --pool 40"
GZIP = b"\x1f\x8b\x08\x00"
LINE = b"chr1\t4\t.\tG\tGCAG,*,t\n"


class Scenario(NamedTuple):
    name: str
    files: dict
    commands: list


def image_of(register, behind=b""):
    return laid(register, bytes(register.size())) + behind


def some_register(**more):
    """One of REPEAT with an active number, an inactive one and some room."""
    issued = Record(1, 10, b"CAGCAGCAGCAG", ACTIVE), Record(2, 3, b"T", INACTIVE)
    return Register(4, 6, 40, len(REPEAT), model.digest(REPEAT), issued, (1, 2, 2))._replace(**more)


LIFE = f"""
    blank r.fv -r cag.fa {SMALL}
    check r.fv [--tsv]
    list r.fv [--tsv]
    list r.fv -r cag.fa [--tsv]
    enter r.fv -r cag.fa 4 4 CAG
    enter r.fv -r cag.fa 1 2 CAGC
    enter r.fv -r cag.fa 1 5 CTGC --tsv
    enter r.fv -r cag.fa 0 11 .
    list r.fv -r cag.fa [--tsv]
    list r.fv [--tsv]
    withdraw r.fv 1
    withdraw r.fv 2 --tsv
    withdraw r.fv 2
    show r.fv 1 [--tsv]
    enter r.fv -r cag.fa 4 7 CAGCAG
    enter r.fv -r cag.fa 2 3 T --tsv
    undo r.fv
    undo r.fv --tsv
    show r.fv 2 -r cag.fa [--tsv]
    show r.fv 3 -r cag.fa [--tsv]
    seal r.fv
    undo r.fv
    seal r.fv --tsv
    check r.fv [--tsv]
    blank r.fv -r cag.fa
    blank r.fv -r cag.fa --force --tsv
    list r.fv
    undo r.fv
"""


def life():
    empty = [*words("enter r.fv -r cag.fa 0 11"), b""]
    yield Scenario("a register from blank to sealed", {b"cag.fa": CAG}, [*script(LIFE), empty, empty])


def allele_words(start, end, replacement):
    """An allele in a command, as its last words: behind -- where its replacement would be read as an option."""
    said = f"{start} {end} {replacement.decode() or '.'}"
    return f"-- {said}" if replacement.startswith(b"-") and replacement != b"-" else said


ON_PROTEIN = """
    blank r.fv -r prot.fa --records 9 --journal 12 --pool 40
    form -r prot.fa 3 4 * [--tsv]
    enter r.fv -r prot.fa 3 4 *
    withdraw r.fv 1
    show r.fv 1 -r prot.fa [--tsv]
    enter r.fv -r prot.fa 3 4 *
    enter r.fv -r prot.fa 2 5 T*Y --tsv
    enter r.fv -r prot.fa 10 11 Q
    form -r prot.fa 10 10 * [--tsv]
    enter r.fv -r prot.fa 10 10 *
    enter r.fv -r prot.fa 11 11 * --tsv
    identify -r prot.fa 11 11 * [--tsv]
    enter r.fv -r prot.fa 10 11 *
    enter r.fv -r prot.fa 10 11 .
    enter r.fv -r prot.fa 7 8 -
    form -r prot.fa 7 7 - [--tsv]
    enter r.fv -r prot.fa -- 7 7 --
    enter r.fv -r prot.fa 7 7 --
    form -r prot.fa --tsv -- 7 7 --
    enter -r prot.fa -- r.fv 7 8 -K
    enter r.fv -r prot.fa 7 8 -K
    identify -r prot.fa -- 7 8 -K
    enter r.fv -r prot.fa -- 7 8 -k
    enter r.fv -r prot.fa 3 4 +
    list r.fv -r prot.fa [--tsv]
    list r.fv [--tsv]
    show r.fv 3 -r prot.fa [--tsv]
    show r.fv 6 -r prot.fa
    check r.fv
    form -r aligned.fa 6 6 - [--tsv]
    form -r aligned.fa 5 6 . [--tsv]
    form -r aligned.fa -- 13 14 --
    form -r aligned.fa 0 14 . [--tsv]
    identify -r aligned.fa 14 14 * [--tsv]
    form -r aligned.fa --vcf a.vcf [--tsv]
    blank a.fv -r aligned.fa --records 9 --journal 12 --pool 40
    enter a.fv -r aligned.fa --vcf a.vcf [--tsv]
    list a.fv -r aligned.fa
"""
# Beside stops and gaps, over them, and with them in REF and ALT.
ON_ALIGNED = b"""\
chr1\t3\t.\tT\tTT,*,-,t
chr1\t3\t.\tTA\tT
chr1\t3\t.\tT*\tT
chr1\t4\t.\t*\tT
chr1\t4\t.\tT\tA
chr1\t5\t.\ta\taa,a-,*a,-A
chr1\t6\t.\t-\tA
chr1\t6\t.\tA\tC
chr1\t8\t.\tIA\tA
chr1\t14\t.\t*\t*
"""


def protein():
    """A stop gained, lost and put before the last one; gaps; a reference that has both, in lower case too."""
    files = {b"prot.fa": PROTEIN, b"aligned.fa": b">chr1\nmkt*a-\n-IAK*qr*\n", b"a.vcf": ON_ALIGNED}
    yield Scenario("stops and gaps", files, script(ON_PROTEIN))


FORMS = """
    form -r cag.fa 4 4 CAG [--tsv]
    form -r cag.fa 1 5 CTGC [--tsv]
    form -r cag.fa 1 4 CAG [--tsv]
    form -r cag.fa 0 11 . [--tsv]
    form -r cag.fa 0 0 . [--tsv]
    form -r cag.fa 5 4 A [--tsv]
    form -r cag.fa 5 12 A [--tsv]
    form -r cag.fa 18446744073709551615 18446744073709551615 A
    form -r cag.fa 4 4 CAg [--tsv]
    form -r cag.fa 4 4 - [--tsv]
    form -r cag.fa 4 4 -- -A
    form -r cag.fa 004 0000000000000000000000004 CAG [--tsv]
    form -r foreign.fa 8 9 . [--tsv]
    form -r foreign.fa 9 9 A
    form -r foreign.fa 8 10 +
    form -r foreign.fa 8 8 A
    form -r foreign.fa 0 11 A
    form -r bytes.fa 0 0 .
    form -r bytes.fa 0 7 A
    form -r empty.fa 0 0 ACGT [--tsv]
    form -r empty.fa 0 0 . [--tsv]
    form -r empty.fa 0 1 . [--tsv]
    identify -r cag.fa 4 4 CAG [--tsv]
    identify -r cag.fa 1 4 CAG [--tsv]
    identify -r empty.fa 0 0 A [--tsv]
    identify -r cag.fa 5 4 A [--tsv]
    identify -r cag.fa 5 12 A [--tsv]
    identify -r cag.fa 4 4 CA. [--tsv]
    identify -r foreign.fa 4 4 A [--tsv]
"""


def forms():
    files = {b"cag.fa": CAG, b"foreign.fa": b">x\nAAccNNxx++T\n", b"empty.fa": b">e\n",
             b"bytes.fa": b">x\n \x20\x21\x7e\x7f\x80\xff\0\x1fAC\n"}
    odd = [[*words("form -r cag.fa 4 4"), replacement] for replacement in (b"C\xffG", b"A B", b"A\n", b"")]
    yield Scenario("forms and identifiers", files, script(FORMS) + odd)


FULL = """
    enter NAME.fv -r cag.fa 4 4 CAG
    enter NAME.fv -r cag.fa 1 1 GTC
    enter NAME.fv -r cag.fa 2 3 T
    enter NAME.fv -r cag.fa 2 3 C
    enter NAME.fv -r cag.fa --vcf calls.vcf --every 1
    withdraw NAME.fv 1
    withdraw NAME.fv 0
    withdraw NAME.fv 18446744073709551615
    show NAME.fv 0 [--tsv]
    show NAME.fv 3 -r cag.fa [--tsv]
    undo NAME.fv
    seal NAME.fv
    undo NAME.fv
    withdraw NAME.fv 2
    list NAME.fv -r cag.fa
    check NAME.fv
"""
AGAIN = """
    enter again.fv -r cag.fa --vcf calls.vcf
    withdraw again.fv 2
    withdraw again.fv 1
    enter again.fv -r cag.fa --vcf calls.vcf --tsv
"""


def full():
    """Everything that may have no room left, and numbers that are not there or not active."""
    registers = {"tight": some_register(records=2, journal=4, pool=13), "records": some_register(records=2),
                 "pool": some_register(pool=14), "journal": some_register(journal=3), "again": some_register(),
                 "nothing": Register(0, 0, 0, len(REPEAT), model.digest(REPEAT))}
    files = {f"{name}.fv".encode(): image_of(register) for name, register in registers.items()}
    files |= {b"cag.fa": CAG, b"calls.vcf": b"chr1\t3\t.\tA\tT\nchr1\t4\t.\tG\tT,GCAG\nchr1\t1\t.\tTC\tTCC,TC,AA\n"}
    commands = [command for name in registers if name != "again" for command in script(FULL.replace("NAME", name))]
    yield Scenario("no room left", files, commands + script(AGAIN))


CAPACITIES = ((0, 0, 0), (10_001, 0, 0), (0, 10_001, 0), (0, 0, 10_000_001), (10_000, 1, 1), (1, 10_000, 1),
              (2**64 - 1, 0, 0), (0, 2**64 - 1, 0), (0, 0, 2**64 - 1), (2**62, 2**62, 2**63), (2**32, 0, 0))


def capacities():
    commands = [words(f"blank r{i}.fv -r cag.fa --records {records} --journal {journal} --pool {pool}") + tsv
                for i, ((records, journal, pool), tsv) in enumerate(product(CAPACITIES, ([], [b"--tsv"])))]
    yield Scenario("capacities", {b"cag.fa": CAG}, [*commands, words("blank r.fv -r cag.fa"), words("check r.fv")])


ON_A_PAIR = """
    enter PAIR 9 4 C
    enter PAIR 4 12 C
    enter PAIR 2 3 c
    enter PAIR 2 3 C
    enter PAIR --vcf good.vcf
    enter PAIR --vcf zipped.vcf
    enter PAIR --vcf folder.vcf
    enter PAIR --vcf none.vcf
    list PAIR
    show PAIR 3
    show PAIR 2 --tsv
    blank PAIR --records 10001
    blank PAIR
"""
ON_A_REGISTER = """
    undo REGISTER
    seal REGISTER
    withdraw REGISTER 9
    check REGISTER
    list REGISTER
    show REGISTER 9
    blank REGISTER -r good.fa --force --records 10001
    blank REGISTER -r none.fa --force --records 10001
    blank REGISTER -r foreign.fa --force --records 10001
"""
ON_A_REFERENCE = """
    form -r REFERENCE 9 4 c
    form -r REFERENCE 4 12 c
    form -r REFERENCE 4 4 c
    form -r REFERENCE --vcf good.vcf
    form -r REFERENCE --vcf zipped.vcf
    form -r REFERENCE --vcf folder.vcf
    form -r REFERENCE --vcf none.vcf
    identify -r REFERENCE 9 4 c
    identify -r REFERENCE 4 12 c
    identify -r REFERENCE 4 4 c
"""


def orders():
    """What may speak against a command, each with each."""
    sound = image_of(some_register())
    registers = {"good.fv": sound, "bad.fv": sound[:-1], "folder.fv": FOLDER,
                 "short.fv": image_of(some_register(residues=12))}
    references = {"good.fa": CAG, "other.fa": OTHER, "foreign.fa": FOREIGN, "no.fa": CAG[1:], "folder.fa": FOLDER}
    calls = {"good.vcf": LINE, "zipped.vcf": GZIP, "folder.vcf": FOLDER}
    files = {name.encode(): text for name, text in (registers | references | calls).items()}
    commands = []
    for register, reference in product((*registers, "none.fv"), (*references, "none.fa")):
        commands += script(ON_A_PAIR.replace("PAIR", f"{register} -r {reference}"))
    for register in ("none.fv", "folder.fv", "bad.fv", "good.fv"):
        commands += script(ON_A_REGISTER.replace("REGISTER", register))
    for reference in (*references, "none.fa"):
        commands += script(ON_A_REFERENCE.replace("REFERENCE", reference))
    yield Scenario("orders", files, commands)


ON_DAMAGE = """
    check NAME.fv [--tsv]
    list NAME.fv
    show NAME.fv 1 -r cag.fa
    enter NAME.fv -r cag.fa 4 4 A
    enter NAME.fv -r cag.fa --vcf a.vcf
    withdraw NAME.fv 1
    undo NAME.fv
    seal NAME.fv
"""


def damaged():
    sound = image_of(some_register())
    images = {"empty": b"", "header": sound[:75], "cut": sound[:-1], "edition": b"\x02" + sound[1:],
              "status": sound[:92] + b"\x02" + sound[93:], "text": CAG * 40, "longer": sound + b"anything behind it"}
    files = {f"{name}.fv".encode(): image for name, image in images.items()} | {b"cag.fa": CAG, b"a.vcf": LINE}
    commands = [command for name in images for command in script(ON_DAMAGE.replace("NAME", name))]
    yield Scenario("damaged registers", files, commands)


AFTER_A_KILL = """
    enter r.fv -r cag.fa 4 4 CAG
    list r.fv
    enter r.fv -r cag.fa 4 5 T
    check r.fv
    seal r.fv
    seal r.fv
"""


def left_over():
    """What a killed run leaves: a half-written image, longer or shorter, and a lock that nobody holds."""
    sound = image_of(some_register())
    for rest in (b"", sound[:50], sound * 3):
        files = {b"cag.fa": CAG, b"r.fv": sound, b"r.fv.new": rest, b"r.fv.lock": b""}
        yield Scenario("after a killed run", files, script(AFTER_A_KILL))
    yield Scenario("a blank one after a killed run", {b"cag.fa": CAG, b"r.fv.new": b"junk" * 999},
                   script(f"blank r.fv -r cag.fa {SMALL}") + script("check r.fv"))


WIDE = f"""
    blank r.fv -r runs.fa {SMALL}0
    form -r runs.fa --vcf a.vcf [--tsv]
    enter r.fv -r runs.fa --vcf a.vcf
    enter r.fv -r runs.fa --vcf a.vcf --tsv
    list r.fv -r runs.fa [--tsv]
    list many.fv -r cag.fa [--tsv]
    show many.fv 1 -r cag.fa [--tsv]
    show many.fv 2 -r cag.fa [--tsv]
    list many.fv [--tsv]
    withdraw many.fv 1
"""


def wide():
    """Cells that are too wide for people, and just not; and a record whose identifier no call makes."""
    many = Register(2, 2, 1_000_100, len(REPEAT), model.digest(REPEAT),
                    (Record(1, 10, b"A" * 1_000_001, ACTIVE), Record(1, 2, b"A" * 50, INACTIVE)))
    lines = b"".join(b"chr1\t%d\t.\t%s\t%s,%s\n" % (31, (b"CGT" * 12)[:k], b"A" * k, b"ACGT" * k)
                     for k in (1, 9, 10, 11, 21, 22, 23, 24, 25, 36))
    files = {b"runs.fa": b">chr1\n" + b"A" * 30 + b"CGT" * 12 + b"\n", b"cag.fa": CAG, b"a.vcf": lines,
             b"many.fv": image_of(many)}
    given = [words(f"form -r runs.fa 3 7 {'G' * k}") for k in (22, 23, 24, 40)]
    yield Scenario("wide cells", files, script(WIDE) + given)


ANYWHERE = """
    form --reference cag.fa 4 4 CAG
    form 4 --tsv 4 -r cag.fa CAG
    form 4 4 CAG -r none.fa -r cag.fa
    form -r two.fa --name chr1 4 4 CAG
    form --name - -r two.fa 2 2 A
    form --name --tsv -r two.fa 2 2 A
    form -r -r 4 4 CAG
    form --tsv --tsv -r cag.fa -- 4 4 CAG
    list -- --tsv
    list --tsv -- --tsv
    check -- --tsv --
    check r.fv --
    check --tsv -- r.fv
    list r.fv --reference cag.fa --tsv
    show -r cag.fa --name chr1 r.fv 1
    show -- r.fv 1
    check -
    enter r.fv --vcf a.vcf -r cag.fa --every 7
    enter --every 9 --vcf none.vcf --vcf a.vcf -r cag.fa r.fv --every 1
    enter -r cag.fa r.fv 4 4 -
    enter -r cag.fa -- r.fv 4 4 --vcf
    withdraw --tsv r.fv 01
    blank --pool 9 x.fv --pool 0 -r cag.fa --records 00
"""


def anywhere():
    """Options in any place and under any name, twice, and behind --; words that look like something else."""
    sound = image_of(some_register())
    files = {b"cag.fa": CAG, b"two.fa": CAG + b">-\nAAAA\n>--tsv\nCCCC\n", b"-r": CAG, b"r.fv": sound, b"--tsv": sound,
             b"-": LINE, b"a.vcf": LINE}
    yield Scenario("options anywhere", files, script(ANYWHERE))


BAD_USAGE = """
    nothing
    Blank r.fv -r cag.fa
    --tsv
    -r cag.fa form 4 4 CAG
    -
    --
    --nothing
    blank
    blank r.fv
    blank -r cag.fa
    blank r.fv s.fv -r cag.fa
    blank r.fv -r
    blank r.fv -r cag.fa --records
    blank r.fv -r cag.fa --records -1
    blank r.fv -r cag.fa --pool 18446744073709551616
    blank r.fv -r cag.fa --vcf a.vcf
    blank r.fv -r cag.fa --journal 0x10
    blank r.fv -r cag.fa --every 1
    blank r.fv --name chr1
    enter
    enter r.fv -r cag.fa
    enter r.fv -r cag.fa 4 4
    enter r.fv -r cag.fa 4 4 CAG CAG
    enter r.fv 4 4 CAG
    enter r.fv -r cag.fa -4 4 CAG
    enter r.fv -r cag.fa +4 4 CAG
    enter r.fv -r cag.fa 4 4x CAG
    enter r.fv -r cag.fa 4 18446744073709551616 CAG
    enter r.fv -r cag.fa 4 99999999999999999999999 CAG
    enter r.fv -r cag.fa 4.0 4 CAG
    enter r.fv -r cag.fa 4 4 CAG --every 1
    enter r.fv -r cag.fa 4 4 CAG --vcf a.vcf
    enter r.fv -r cag.fa --vcf
    enter r.fv -r cag.fa --vcf a.vcf --every 0
    enter r.fv -r cag.fa --vcf a.vcf --every x
    enter r.fv --vcf a.vcf
    enter -r cag.fa --vcf a.vcf
    enter r.fv -r cag.fa 4 4 CAG --force
    enter r.fv -r cag.fa 4 4 CAG --records 1
    enter r.fv 4 4 CAG --name chr1
    withdraw r.fv
    withdraw r.fv 1 2
    withdraw r.fv one
    withdraw r.fv 1 -r cag.fa
    withdraw 1
    withdraw r.fv 18446744073709551616
    undo
    undo r.fv 1
    undo r.fv --force
    seal
    seal r.fv r.fv
    seal r.fv -x
    list
    list r.fv 1
    list r.fv --name chr1
    list r.fv --vcf a.vcf
    list r.fv -r
    show r.fv
    show r.fv 1 1
    show r.fv -1
    show r.fv 1 --name chr1
    show r.fv 1 --every 1
    form
    form 4 4 CAG
    form -r cag.fa
    form -r cag.fa 4 4
    form -r cag.fa 4 4 A C
    form -r cag.fa --vcf a.vcf 4 4 CAG
    form -r cag.fa --vcf a.vcf --every 1
    form --vcf a.vcf
    form -r cag.fa 4 4 CAG --every 1
    form -r cag.fa four 4 CAG
    form -r cag.fa 4 4 -A
    identify
    identify 4 4 CAG
    identify -r cag.fa 4 4
    identify -r cag.fa 4 4 CAG --vcf a.vcf
    identify -r cag.fa --vcf a.vcf
    identify -r cag.fa 4 x C
    check
    check r.fv r.fv
    check r.fv -r cag.fa
    check r.fv --name chr1
    check --tsv
"""


def bad_usage():
    files = {b"cag.fa": CAG, b"a.vcf": LINE, b"r.fv": image_of(some_register())}
    empty = [[], [b""], [*words("form -r cag.fa"), b"", b"4", b"CAG"], [*words("show r.fv"), b""],
             [*words("withdraw r.fv"), b" 1"], [*words("withdraw r.fv"), b"1\n"]]
    yield Scenario("bad usage", files, script(BAD_USAGE) + empty)


def plain_scenarios():
    for scenarios in (life, protein, forms, full, capacities, orders, damaged, left_over, wide, anywhere, bad_usage):
        yield from scenarios()

"""FASTA and VCF files in every shape, as scenarios."""
from itertools import product

from cases import CAG, GZIP, LINE, SMALL, Scenario, image_of, some_register
from started import script, words

# Pieces in which a program may well read a file.
PIECES = [2**k for k in range(9, 21)]

REFERENCES = {
    "several": b">chr1\nTCAGCAGCAGT\n>chr2\nACGT\n>chr10\nGGGG\n",
    "crlf": b">chr1 x\r\nTCAGC\r\nAGCAGT\r\n",
    "lower": b">chr1\ntcagCAGcagt\n",
    "unended": b">chr1\nTCAGCAGCAGT",
    "return": b">chr1\nTCAGCAGCAGT\r",
    "names": b">chr1\r\n>chr2\t\r\nAC\r\n>chr3",
    "blanks": b">chr1\n\n\nTCAG\n\nCAGCAGT\n\n\n",
    "tabbed": b">chr1\tabout it\nTCAGCAGCAGT\n",
    "unnamed": b">\nTCAGCAGCAGT\n",
    "blank-name": b"> chr1\nTCAGCAGCAGT\n",
    "foreign": b">chr1\nTCAG CAGCAGT\n",
    "lone-return": b">chr1\nTCAG\rCAGCAGT\n",
    "two-returns": b">chr1\nTCAG\r\r\nCAGCAGT\n",
    "nul": b">chr1\nTCAG\0CAGCAGT\n",
    "high": b">chr1\nTCAG\xc3\xa9CAGCAGT\n",
    "zipped": GZIP + b">chr1\nTCAG\n",
    "half-zipped": b"\x1f",
    "text": b"TCAGCAGCAGT\n",
    "late": b"\n>chr1\nTCAGCAGCAGT\n",
    "comment": b";chr1\nTCAGCAGCAGT\n",
    "twice": b">chr1\nTCAGCAGCAGT\n>chr2\nAC\n>chr1\nTCAGCAGCAGT\n",
    "empty": b"",
    "only-name": b">chr1",
    "only-mark": b">",
    "no-residues": b">chr1\n>chr2\n>chr3\nACGT\n",
    "odd-name": b">chr\x01\xff1~!\nTCAGCAGCAGT\n",
    "mark-within": b">chr1>chr2\nTCAG>CAG\n",
    "residues": b">chr1\nABCDEFGHIJKLMNOPQRSTUVWXYZabcdefghijklmnopqrstuvwxyz*-\n",
    "beside-residues": b">chr1\nA@[`{)+,.Z\n",
    "stops-and-gaps": b">chr1\n*tc-G--\n-\ncag*\n*\n",
}


ON_A_REFERENCE = f"""
    blank NAME.fv -r NAME.fa {SMALL}
    blank NAME1.fv -r NAME.fa --name chr1 {SMALL}
    form -r NAME.fa --name chr1 2 3 C
    form -r NAME.fa 4 4 T
    enter NAME1.fv -r NAME.fa --name chr1 --vcf a.vcf
    list NAME1.fv -r NAME.fa
"""


def references():
    commands = [command for name in REFERENCES for command in script(ON_A_REFERENCE.replace("NAME", name))]
    commands += [words(f"{command} -r several.fa --name {name} 0 0 A") for command, name in product(
        ("form", "identify --tsv"), ("chr1", "chr2", "chr10", "chr", "chr3", "CHR1"))]
    commands += [[*words(f"form -r {file}.fa 0 0 A --name"), name] for file, name in (
        ("unnamed", b""), ("several", b""), ("odd-name", b"chr\x01\xff1~!"), ("names", b"chr3"))]
    files = {f"{name}.fa".encode(): text for name, text in REFERENCES.items()}
    yield Scenario("FASTA in every shape", files | {b"a.vcf": LINE}, commands)


def to_the_ends_of_pieces(text, line_end, line):
    """The text continued with lines, such that each piece's last byte is the first of a line's end. A line is what
    makes one of so many bytes."""
    for piece in PIECES:
        while piece - 1 - len(text) > 200 + piece // 20:
            text += line(100 + piece // 40) + line_end
        text += line(piece - 1 - len(text)) + line_end
    return text


def residues(length):
    return (b"ACGT" * length)[:length]


def data_line(length):
    return b"chr1\t4\t.\tG\tT,GCAG\t".ljust(length, b"x")


def named_at_pieces(before):
    """A file in which a name's line begins so many bytes before the end of each piece."""
    text = b">s\nAC\n"
    for piece in PIECES:
        text += residues(piece - before - 1 - len(text)) + b"\n>p%d x\nACGT\n" % piece
    return text


IN_PIECES = """
    identify -r crlf.fa 0 0 A
    identify -r lone.fa 0 0 A
    identify -r lines.fa 0 0 A
    identify -r return.fa 0 0 A
    identify -r names0.fa 0 0 A
    form -r crlf.fa 65535 65536 . [--tsv]
    form -r lone.fa 600 601 T
    form -r cag.fa --vcf crlf.vcf --tsv
    form -r cag.fa --vcf lines.vcf
    enter r.fv -r cag.fa --vcf crlf.vcf --every 13
"""


def pieces():
    """Line ends and names where a piece of a file ends and the next begins."""
    files = {b"cag.fa": CAG, b"r.fv": image_of(some_register()),
             b"crlf.fa": to_the_ends_of_pieces(b">chr1\r\n", b"\r\n", residues),
             b"lone.fa": to_the_ends_of_pieces(b">chr1\n", b"\r", residues),
             b"lines.fa": to_the_ends_of_pieces(b">chr1\n", b"\n", residues),
             b"return.fa": b">chr1\n" + residues(2**16 - 7) + b"\r",
             b"crlf.vcf": to_the_ends_of_pieces(b"##x\r\n", b"\r\n", data_line),
             b"lines.vcf": to_the_ends_of_pieces(b"##x\n", b"\n", data_line)[:-1]}
    files |= {b"names%d.fa" % before: named_at_pieces(before) for before in (0, 1, 3)}
    yield Scenario("pieces", files, [
        *script(IN_PIECES), (words("form -r cag.fa --vcf - --tsv"), files[b"crlf.vcf"]),
        *(words(f"identify -r names{before}.fa --name p{piece} 0 0 A")
          for before, piece in product((0, 1, 3), (512, 4096, 2**16, 2**20)))])


SITES = b"""\
chr1\t4\t.\tG\tGCAG
chr1\t4\trs1\tG\tGCAG\t50\tPASS\tAC=1\tGT\t0/1
chr1\t2\t.\tCAG\tC,CAGCAG,cagT
chr1\t2\t.\tcag\tc
chr1\t1\t.\tT\tA,C,G,T,N
chr1\t11\t.\tT\tTA
chr1\t11\t.\tTA\tT
chr1\t12\t.\tA\tT
chr1\t0\t.\tT\tA
chr1\t04\t.\tG\tA
chr1\t+4\t.\tG\tA
chr1\t-4\t.\tG\tA
chr1\t4 \t.\tG\tA
chr1\t4.0\t.\tG\tA
chr1\t99999999999999999999999999\t.\tG\tA
chr1\t18446744073709551620\t.\tG\tA
chr1\t\t.\tG\tA
chr1\t4\t.\tT\tA
chr1\t4\t.\tGCAT\tA
chr1\t4\t.\tg1\tA
chr1\t4\t.\t\tA
chr1\t4\t.\tG.\tA
chr1\t4\t.\tG*\tA
chr1\t4\t.\t-\tA
chr1\t4\t\tG\t
chr1\t4\t.\tG\t.
chr1\t4\t.\tG\t*
chr1\t4\t.\tG\tG*,-,T,-G
chr1\t4\t.\tG\t<DEL>,<INS:ME>,GA
chr1\t4\t.\tG\tG[2:421681[,]1:1]G,G.,.G
chr1\t4\t.\tG\tA,,C
chr1\t4\t.\tG\t,
chr1\t4\t.\tG\tG,g
chr1\t4\t.\tG
chr1\t4\t.
chr1\t4
chr1\t
chr1
chr1 4 . G A
nothing at all
\x20
chr2\t4\t.\tG\tA
chr10\t4\t.\tG\tA
chr1 \t4\t.\tG\tA
\t4\t.\tG\tA
CHR1\t4\t.\tG\tA
#chr1\t4\t.\tG\tA
chr1\t4\t.\tG\tA\0
chr1\t4\0\t.\tG\tA
chr1\t4\t.\tG\tA\x01\xff,\xe9
chr1\t\x1f\x21\x7e\x7f\t.\t\x20\x21\x7e\t\x7f\x80,~!
chr1\0\t4\t.\tG\tA
chr1\t4\t\xff\0\tG\tA\r
chr1\t4\t.\tG\r\tA
"""
HEADER = b"##fileformat=VCFv4.3\n##contig=<ID=chr1,length=11>\n#CHROM\tPOS\tID\tREF\tALT\tQUAL\tFILTER\tINFO\n"
LONG = b"chr1\t4\t.\tG\t%s\n"
CALLS = {
    "sites": HEADER + SITES,
    "crlf": (HEADER + SITES).replace(b"\n", b"\r\n"),
    "unended": SITES[:-1],
    "return": LINE[:-1] + b"\r",
    "two-returns": LINE[:-1] + b"\r\r\n" + LINE,
    "gaps": b"\n\n" + LINE + b"\r\n\r\n" + b"#\n" + LINE.replace(b"\n", b"\n\n\n"),
    "many": LONG % b",".join(b"ACGT"[k % 4:] + b"T" * k for k in range(300)),
    "long": LONG % (b"G" + b"CAG" * 50_000) + b"chr1\t4\t.\tG\tA\t" + b"x" * 300_000 + b"\n" + LINE,
    "too-long": LONG % (b"G" * 1_000_001 + b",T," + b"C" * 1_000_000),
    "empty": b"",
    "feed": b"\n",
    "header": HEADER,
    "others": SITES.replace(b"chr1\t", b"chrX\t"),
    "half-zipped": b"\x1f",
    "zipped": GZIP + LINE,
    "nul": b"\0",
}


ROOM = "--records 400 --journal 400 --pool 200000"
ON_CALLS = f"""
    blank NAME.fv -r cag.fa {ROOM}
    enter NAME.fv -r cag.fa --vcf NAME.vcf
    enter NAME.fv -r cag.fa --vcf NAME.vcf --tsv
    check NAME.fv
    form -r cag.fa --vcf NAME.vcf [--tsv]
    blank NAME.fv -r cag.fa {ROOM} --force --tsv
"""


def calls():
    files = {f"{name}.vcf".encode(): text for name, text in CALLS.items()} | {b"cag.fa": CAG}
    commands = []
    for name, text in CALLS.items():
        commands += [*script(ON_CALLS.replace("NAME", name)), (words("form -r cag.fa --vcf -"), text),
                     (words(f"enter {name}.fv -r cag.fa --vcf - --every 5"), text)]
    yield Scenario("VCF in every shape", files, commands)


ON_ODD_NAMES = """
    blank odd.fv -r odd.fa
    enter odd.fv -r odd.fa --vcf odd.vcf --every 3
    form -r odd.fa --vcf a.vcf --tsv
"""
IN_BATCHES = """
    blank r.fv -r cag.fa --force ROOM
    enter r.fv -r cag.fa --vcf a.vcf --every EVERY
    enter r.fv -r cag.fa --vcf a.vcf --tsv --every EVERY
"""


def batches():
    """Saves after so many lines, into registers with much room and with little; widths change from batch to batch."""
    files = {b"cag.fa": CAG, b"a.vcf": HEADER + SITES, b"odd.fa": b">\xff\nTCAGCAGCAGT\n",
             b"odd.vcf": SITES.replace(b"chr1\t", b"\xff\t")}
    commands = script(ON_ODD_NAMES)
    for every, room in product((1, 2, 3, 7, 46, 47, 48, 2**64 - 1), (SMALL, "--records 40 --journal 40 --pool 400")):
        commands += script(IN_BATCHES.replace("ROOM", room).replace("EVERY", str(every)))
    yield Scenario("batches", files, commands)


def file_scenarios():
    for scenarios in (references, pieces, calls, batches):
        yield from scenarios()

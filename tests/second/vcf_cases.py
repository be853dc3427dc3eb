"""Calls on VCF lines: what may stand in each column, each refusal, and their order."""
from itertools import chain, combinations, product
from pathlib import Path

import alleles
import model
from alleles import STEPS
from arguments import FOREIGN, extreme, far, letters, residue_lost, spoiled, with_byte
from exchange import Case, Untouched
from vcf_calls import count, every_call, form, form_case, line, needed, placed
from vcf_files import data
from vcf_molecules import cased, some_rest

REPEAT = b"TCAGCAGCAGT"
LIMIT = model.REFERENCE_LIMIT

# Sections 5.4.7 to 5.4.9 of source document 002: POS, REF and ALT, with brackets where our copy has misread them.
BREAKENDS = (
    (321681, b"T", b"<INV>"),
    (321681, b"G", b"G]2:421681]"),
    (321682, b"T", b"[2:421682[T"),
    (421681, b"A", b"A]2:321681]"),
    (421682, b"C", b"[2:321682[C"),
    (321681, b"T", b"T]13:123462]"),
    (123456, b"A", b"A]2:321687]"),
    (321681, b"G", b"G."),
    (321682, b"T", b"]13:123456]T"),
    (123456, b"C", b"C[2:321682["),
    (123457, b"A", b".A"),
    (12665, b"A", b".A"),
    (12665, b"A", b"<DUP>"),
    (13686, b"T", b"T."),
    (12665, b"A", b".TGCA"),
    (13686, b"T", b"TCC."),
)
# What is not one or more letters, each but for little.
NO_LETTERS = (
    b"", b".", b"*", b"-", b"<DEL>", b"<*>", b"<NON_REF>", b"<INS:ME:ALU>", b"<A>", b"G[2:421681[", b"[2:321682[G",
    b"G.", b".G", b"TCC.", b".TGCA", b"*G", b"G*", b"**", b"A-", b"-A", b"A ", b" A", b"A\r", b"\r", b"A\n", b"\nA",
    b"A\nC", b"A\x00", b"\x00", b"A1", b"1", b"A;C", b"A/C", b"A|C", b"@", b"[", b"`", b"{", b"A@", b"A[", b"a`",
    b"a{", b"--", b"-*", b"+", b"A+", b")A", b"\xc1", b"\xe1", "\u00c4".encode(), "\uff21".encode(),
)
NO_LETTER = b"@[`{*.-< \r\x00\xc1\xff"
ALTERNATES = (b"A", b"g", b"Gt", b"ACGTACGT", b"N", b"z", b"G")
# What is no decimal of 64 bits, or is one only by an eager reader.
NO_DECIMALS = (
    b"", b"0", b"00", b"01", b"007", b"+1", b"-1", b" 1", b"1 ", b"1.", b"1.0", b"1,0", b"1e0", b"0x1", b"1_0", b"1\r",
    b"1\n", b"\n1", b"/", b":", b"1/", b"1:", b"1\x00", b"\x00", b"A", b"-0", b"1" * 40, b"1" * 5000, "\u00b2".encode(),
    "\uff11".encode(),
)


def files(rng):
    """Every data line of the files in tests/vcf."""
    for lines in sorted(Path(__file__).parents[1].glob("vcf/*.vcf")):
        for reference, text in data(lines.with_suffix(".fa"), lines):
            yield from every_call(rng, reference, text)


def breakends(rng):
    """Those that are published, far along a reference that is otherwise unknown."""
    for pos, ref, alt in BREAKENDS:
        text = line(pos, ref, alt, rest=(b"6", b"PASS"))
        yield count(b"N" * (pos - 1) + ref, text)
        yield placed(rng, b"N" * (pos - 1) + ref, text, 1)


def alternates(rng):
    """Each that is turned away, alone and beside others, which are answered."""
    for odd in NO_LETTERS:
        for alt in ((odd,), (odd, b"A"), (b"A", odd), (b"gT", odd, b"ACG"), (odd, odd)):
            yield from every_call(rng, REPEAT, line(4, b"G", b",".join(alt), rest=some_rest(rng)))
    for _ in range(400):
        some = rng.choices(ALTERNATES + NO_LETTERS, k=rng.choice((1, 2, 3, 5, 9)))
        yield from every_call(rng, REPEAT, line(4, cased(rng, b"G"), b",".join(some), rest=some_rest(rng)))


def many_places(rng):
    """Lines of many alternates, asked for near each end and where a count of 8 bits or 16 would turn."""
    for places in (255, 256, 257, 1000, 65_536, 65_537):
        some = [alleles.residues(rng, rng.randint(1, 3), b"ACGTacgt") for _ in range(places)]
        for text in (line(4, b"G", b",".join(some)), line(4, b"G", b"," * (places - 1), rest=(b"A,C",))):
            yield count(REPEAT, text)
            for alternate in (1, 2, 254, 255, 256, 257, places - 1, places, places + 1, 2**16 + 1, 2**32 + 1):
                yield placed(rng, REPEAT, text, alternate)


def columns(rng):
    """Every number of columns, and each of them empty or not."""
    good = b"chr1", b"4", b".", b"G", b"GCAG", b"50", b"PASS", b"DP=9"
    for many in range(len(good) + 1):
        for some in product((True, False), repeat=many):
            text = b"\t".join(column if there else b"" for column, there in zip(good, some))
            yield count(REPEAT, text)
            for alternate in (0, 1, 2):
                yield placed(rng, REPEAT, text, alternate)
    for text in (b"chr1 4 . G GCAG", b"chr1,4,.,G,GCAG", b"\tchr1\t4\t.\tG\tGCAG", b"chr1\t\t4\t.\tG\tGCAG",
                 b"#CHROM\tPOS\tID\tREF\tALT", b"##fileformat=VCFv4.5", b"#chr1\t4\t.\tG\tGCAG"):
        yield from every_call(rng, REPEAT, text)


def positions(rng):
    """Every POS of short references and past them, all that is no decimal, and decimals that wrap to one of these."""
    for reference in (b"", b"G", b"GG", b"G" * 9, b"G" * 10, b"G" * 11, b"G" * 101):
        n = len(reference)
        plain = {0, 1, 2, 9, 10, 11, n - 1, n, n + 1, n + 2} - {-1}
        wrapping = {power + pos for power in (2**32, 2**63, 2**64, 2**65, 10 * 2**64) for pos in (0, 1, n, n + 1)}
        for pos in (*NO_DECIMALS, *sorted(plain | wrapping | {2**64 - 1}), *(b"0%d" % pos for pos in plain)):
            for ref, alt in ((b"G", b"GA"), (b"g", b"T,<DEL>")):
                text = line(pos, ref, alt)
                yield count(reference, text)
                yield placed(rng, reference, text, 1)
    for _ in range(1500):
        text = line(rng.choice((b"%d", b"0%d", b"%d0", b"+%d")) % extreme(rng), b"G", b"A")
        yield rng.choice((count(b"G" * 40, text), placed(rng, b"G" * 40, text, 1)))


def references(rng):
    """Every REF that agrees with a short reference up to its end or past it, the same with another letter at each
    offset, and the reference in lower case, with a stop, a gap or a foreign byte there."""
    reference = b"ACGTA"
    for start in range(len(reference)):
        for length in range(len(reference) + 3):
            ref = (reference[start:] + b"CGT")[:length]
            others = (with_byte(ref, offset, byte) for offset in range(length) for byte in (*b"Tt*-", *FOREIGN))
            for some in (ref, ref.lower(), *others):
                text = line(start + 1, some, b"C,t")
                yield count(reference, text)
                yield placed(rng, reference, text, rng.choice((0, 1, 2, 3)))
            for offset, byte in product(range(len(reference)), b"acgt\x00x*-"):
                yield placed(rng, with_byte(reference, offset, byte), line(start + 1, cased(rng, ref), b"C"), 1)


def on_stops(rng):
    """Every REF on a reference with stops and gaps, as it stands there or with letters in their place, and alternates
    beside them."""
    reference = b"*AAC-*CA--A*"
    for start, end in combinations(range(len(reference) + 1), 2):
        ref = reference[start:end]
        for some in (ref, ref.replace(b"*", b"A").replace(b"-", b"A")):
            yield from every_call(rng, reference, line(start + 1, some, b"a,*,AA,-,C,A*,-A," + ref))


def edges_within(length):
    """Offsets in a text of this length at which a loop begins, turns and ends."""
    return sorted({0, length // 2, length - 1} | {edge for edge in STEPS if edge < length})


def long_references(rng):
    """REF of many letters, up to the reference's end, in which one is another, no letter, one too many, or laid over a
    stop or a gap."""
    for length in (*STEPS, 100_000):
        reference = b"-*" + letters(rng, length)
        ref = reference[2:]
        for offset in edges_within(length):
            for byte in (0x41 + (ref[offset] - 0x40) % 26, rng.choice(NO_LETTER)):
                text = line(3, with_byte(cased(rng, ref), offset, byte), b"A")
                yield rng.choice((count(reference, text), placed(rng, reference, text, 1)))
            yield count(with_byte(reference, 2 + offset, rng.choice(b"*-")), line(3, cased(rng, ref), b"A"))
        for some in (ref, ref.lower(), ref + b"A", ref[:-1]):
            for alt in (b"A", some[:-1] or b"C", some + b"A", some):
                yield placed(rng, reference, line(3, some, alt), 1)
    reference = letters(rng, model.REPLACEMENT_LIMIT + 1)
    for some in (reference, reference.lower(), reference[:-1] + b"-", reference + b"A"):
        yield placed(rng, reference, line(1, some, b"*,a"), 2)


def long_columns(rng):
    """Each column that may be long, and an alternate, which has one byte that is no letter or has none."""
    for length in STEPS:
        many = letters(rng, length)
        for long in ({"chrom": many}, {"identifier": many}, {"rest": (many, many)}):
            yield from every_call(rng, REPEAT, line(4, b"G", b"GCAG,t", **long))
        yield from every_call(rng, REPEAT, line(4, b"G", b"%s,%s" % (many, many.lower())))
        for offset in edges_within(length):
            alternate = with_byte(cased(rng, many), offset, rng.choice(NO_LETTER))
            yield placed(rng, REPEAT, line(4, b"G", b"A,%s,C" % alternate), 2)


def every_room(rng):
    """Normal replacements of 0, 1 and 12 bytes: every short buffer, with every place in it, one past it and far."""
    for reference, text in ((b"ATGC", line(2, b"TG", b"<DEL>,t")), (b"ATGC", line(2, b"T", b"*,G")),
                            (REPEAT, line(4, b"g", b".,gCAG")), (REPEAT, line(4, b"G", b"A,g"))):
        for room in range(16):
            for place in (*range(room + 2), *far(needed(reference, text, 2))):
                yield form(reference, text, 2, rng.randbytes(room), place)


def every_byte(rng):
    """Every byte in the place of each byte of a short line, and between them."""
    reference, text = b"*CA-T", b"c\t2\t.\tCa\tGt,T\tq"
    for offset, byte in product(range(len(text) + 1), range(256)):
        for other in (with_byte(text, offset, byte), text[:offset] + bytes([byte]) + text[offset:]):
            yield count(reference, other)
            yield placed(rng, reference, other, 1)
            yield placed(rng, reference, other, 2)


def orders(rng):
    """What may speak against a call, each with each."""
    given = (REPEAT, REPEAT.lower(), b"", Untouched(LIMIT), Untouched(LIMIT + 1), Untouched(2**32 + 11))
    refs, alts = (b"GCAG", b"GCAT", b"", b"G*", b"GCAGCAGTT"), (b"gcag,T", b"*,-", b"")
    for reference, tab, pos, ref, alt in product(given, b"\t ", (b"4", b"0", b"12", b"04"), refs, alts):
        text = b"chr1\t%s\t.%c%s\t%s" % (pos, tab, ref, alt)
        yield count(reference, text)
        for alternate, room in product((0, 1, 3), (5, 0)):
            yield form(reference, text, alternate, rng.randbytes(room), 1)


def long_alternates(rng):
    """As many letters as an alternate may have, and one more, with and without what else speaks against the call."""
    limit = model.REPLACEMENT_LIMIT
    most = letters(rng, limit)
    for alternate in (most, most.lower(), most + b"A", most + b"a", with_byte(most, limit - 1, 0x5B), most + b"*"):
        for ref in (b"G", b"C"):
            yield placed(rng, REPEAT, line(4, ref, b"A," + alternate, rest=(b".",)), 2)
    for room in (limit, limit - 1):
        yield form(REPEAT, line(4, b"G", most), 1, rng.randbytes(room), 0)
    text = line(4, b"G", most + b"A,t")
    yield from (count(REPEAT, text), *(placed(rng, REPEAT, text, alternate) for alternate in (0, 1, 2, 3)))


def long_lines(rng):
    """A line without a tab, one that is long behind ALT, and a reference at its limit and over it: of a line on zero
    bytes no letter agrees."""
    many = Untouched(100_000_000)
    for reference, refusal in ((REPEAT, 19), (Untouched(LIMIT), 19), (Untouched(LIMIT + 1), 1)):
        yield Case("fv_vcf_count", b"c", (), (reference, many), (refusal, 0, 0), ())
        yield form_case(reference, many, 1, b"AC", 0, (refusal, 0, 0, 0, 0, 0, *model.UNMOVED), b"AC")
    yield from every_call(rng, REPEAT, line(4, b"G", b"GCAG,T", rest=[rng.randbytes(1_000_000)]))
    for n in (LIMIT, LIMIT + 1):
        for pos, ref in product((1, n - 1, n, n + 1, LIMIT, 2 * LIMIT), (b"A", b"AAA", b"", b"*")):
            yield from every_call(rng, Untouched(n), line(pos, ref, b"C,<DEL>"))


def anchored(rng, reference, start, end, replacement):
    """The allele as a line, widened until REF and ALT have a letter. None where the reference has none left."""
    while start == end or not replacement:
        if start > 0 and (rng.random() < 0.8 or end == len(reference)):
            start, replacement = start - 1, reference[start - 1:start] + replacement
        elif end < len(reference):
            replacement, end = replacement + reference[end:end + 1], end + 1
        else:
            return None
    return start, end, replacement


def some_line(rng, reference, start, end, replacement):
    """A line whose alternate at some place is this allele's, and that place."""
    others = rng.choices(ALTERNATES + NO_LETTERS, k=rng.choice((0, 0, 1, 4)))
    place = rng.randint(0, len(others))
    alt = b",".join((*others[:place], cased(rng, replacement), *others[place:]))
    return line(start + 1, cased(rng, reference[start:end]), alt, rng.choice((b"1", b"chrX", b"")),
                rng.choice((b".", b"rs123", b"")), some_rest(rng)), place + 1


def lines_of(rng, some):
    """These alleles as lines, now and then on a reference that has other bytes elsewhere, or in the line too."""
    for reference, *given in some:
        given = anchored(rng, reference, *given)
        if given is None:
            continue
        text, place = some_line(rng, reference, *given)
        if rng.random() < 0.2:
            reference = rng.choice((spoiled, residue_lost))(rng, reference)
        if rng.random() < 0.1:
            yield count(reference, text)
        yield placed(rng, reference, text, place)


def garbage(rng):
    """Lines of any bytes, of those that lines have, and good lines in which some are changed, put in or left out."""
    for _ in range(6000):
        bytes_of = rng.choice((bytes(range(256)), b"\t\t\t,01249.*<>[]ACGTacgt", b"\t4.GCA,"))
        text = bytes(rng.choices(bytes_of, k=rng.randint(0, 30)))
        yield rng.choice((count(REPEAT, text), placed(rng, REPEAT, text, rng.randint(0, 3))))
    for _ in range(9000):
        text = bytearray(line(4, b"GCA", b"GCAGCA,g,<DEL>", rest=some_rest(rng)))
        for _ in range(rng.choice((1, 1, 2, 3))):
            start, end = sorted(rng.choices(range(len(text) + 1), k=2))
            end = rng.choice((start, min(start + 1, len(text)), end))
            text[start:end] = rng.choice((b"", b"\t", b",", b"4", text[end:end + 4], rng.randbytes(1)))
        yield rng.choice((count(REPEAT, bytes(text)), placed(rng, REPEAT, bytes(text), rng.randint(0, 4))))


def extreme_numbers(rng):
    """Any alternate and any place."""
    for _ in range(4000):
        text = line(4, b"G", b"GCAG,t,*")
        alternate, place = rng.choice((1, 2, extreme(rng))), rng.choice((0, extreme(rng)))
        yield form(REPEAT, text, alternate, rng.randbytes(14), place)


def vcf_cases(rng):
    for cases in (files, alternates, many_places, columns, positions, references, on_stops, long_references,
                  long_columns, every_room, every_byte, orders, breakends, long_alternates, long_lines, garbage,
                  extreme_numbers):
        yield from cases(rng)
    small = alleles.every_small(5, most=2), alleles.every_small(3, b"ACG", 2), alleles.every_small(3, b"AC*", 2)
    long = alleles.long_rolls(), alleles.long_moves()
    yield from lines_of(rng, chain(*small, *long, (alleles.any_allele(rng) for _ in range(15_000))))

"""Prints what the program `allele_vectors` has to print."""
import model
import published
import texts
from shown import moved, outcome, shown

REPEAT = b"TCAGCAGCAGT"
PROTEIN = b"MKTAYIAKQR*"
GAPS = b"AC--GT"
ACGT_DIGEST = model.digest(b"ACGT")
LAST_U64 = 2**64 - 1


def normal_form_lines():
    for reference, start, end, replacement, place, room in (
        # document 01's worked alleles
        (REPEAT, 4, 4, b"CAG", 2, 16), (REPEAT, 1, 2, b"CAGC", 2, 16), (REPEAT, 1, 4, b"", 2, 16),
        (REPEAT, 2, 3, b"T", 2, 16), (REPEAT, 1, 5, b"CTGC", 2, 16), (REPEAT, 3, 5, b"TTT", 2, 16),
        (REPEAT, 0, 0, b"T", 2, 16), (REPEAT, 11, 11, b"A", 2, 16), (REPEAT, 0, 11, b"", 2, 16),
        (REPEAT, 1, 4, b"CAG", 2, 16), (REPEAT, 2, 2, b"", 2, 16), (b"", 0, 0, b"ACGT", 0, 16),
        (REPEAT, 0, 4, b"TCAGCAG", 2, 16), (REPEAT, 4, 11, b"CAGCAGCAGT", 2, 16),
        (REPEAT, 9, 4, b"A", 2, 16), (REPEAT, 4, 11, b"A", 2, 16), (REPEAT, 4, 12, b"A", 2, 16),
        # positions, bytes given, bytes of the reference, rooms
        (REPEAT, 12, 12, b"a", 2, 16), (REPEAT, LAST_U64, 11, b"A", 2, 16), (REPEAT, LAST_U64, LAST_U64, b"A", 2, 16),
        (b"", 0, 1, b"", 0, 16),
        (REPEAT, 4, 11, b"A[", 2, 16), (REPEAT, 4, 11, b"@A", 2, 16), (REPEAT, 5, 4, b"@A", 2, 16),
        (b"TxxT", 1, 2, b"", 0, 16), (b"TAxAxAT", 2, 4, b"", 0, 16), (b"AxC", 1, 2, b"", 0, 16),
        (b"TxxT", 1, 3, b"A", 0, 16), (b"TxxT", 1, 2, b"", 0, 0),
        (REPEAT, 4, 4, b"CAG", 4, 16), (REPEAT, 4, 4, b"CAG", 5, 16), (REPEAT, 4, 4, b"CAG", 0, 11),
        (REPEAT, 4, 4, b"CAG", LAST_U64, 16),
        (REPEAT, 0, 11, b"", 16, 16), (REPEAT, 0, 11, b"", 17, 16), (REPEAT, 0, 11, b"", 0, 0),
        # stops and gaps: put in, taken out, alone, as ends
        (PROTEIN, 8, 9, b"*", 2, 16), (PROTEIN, 10, 11, b"W", 2, 16), (PROTEIN, 10, 11, b"", 2, 16),
        (PROTEIN, 10, 10, b"*", 2, 16), (PROTEIN, 11, 11, b"*", 2, 16), (PROTEIN, 8, 11, b"*", 2, 16),
        (PROTEIN, 10, 11, b"*", 2, 16),
        (GAPS, 3, 3, b"-", 0, 16), (GAPS, 2, 3, b"", 0, 16), (GAPS, 2, 4, b"", 0, 16),
        (b"*", 0, 0, b"*", 0, 16), (b"*", 0, 1, b"-", 0, 16), (b"-", 1, 1, b"-", 0, 16), (b"-", 0, 1, b"*", 0, 16),
        (b"*ACGT-", 2, 4, b"-T*", 0, 16), (b"-ACGT*", 2, 4, b"*T-", 0, 16),
        (b"*ACGT-", 0, 0, b"*", 0, 16), (b"*ACGT-", 6, 6, b"-", 0, 16),
        # the bytes beside the residues, given and of the reference
        (PROTEIN, 8, 9, b"*)", 2, 16), (PROTEIN, 8, 9, b"*+", 2, 16), (PROTEIN, 8, 9, b"-,", 2, 16),
        (PROTEIN, 8, 9, b"-.", 2, 16), (PROTEIN, 8, 9, b"*-@", 2, 16), (PROTEIN, 8, 9, b"-*[", 2, 16),
        (b"T*)*)T", 1, 3, b"", 0, 16), (b"T*+*+T", 1, 3, b"", 0, 16), (b"T-,-,T", 1, 3, b"", 0, 16),
        (b"T-.-.T", 1, 3, b"", 0, 16), (b"T*@*@T", 1, 3, b"", 0, 16), (b"T-[-[T", 1, 3, b"", 0, 16),
        (b"T++T", 1, 2, b"", 0, 16), (b"T*-*-T", 1, 3, b"", 0, 16),
    ):
        given = f"{shown(reference)} {start} {end} {shown(replacement)} place {place} room {room}"
        refusal, value, kind, start, end, length, *far, out = model.normal_form(
            reference, start, end, replacement, bytes(room), place)
        formed = f"formed {start} {end} {model.KINDS[kind]} {shown(out[place:place + length])}{moved(*far)}"
        yield f"normal-form {given} " + outcome(refusal, value, formed)


def written(call, *arguments):
    """What the call answers where it has room for what it writes; some calls say how far the interval moved."""
    refusal, value, length, *far, out = call(*arguments, bytes(160), 0)
    return outcome(refusal, value, f"written {length} {shown(out[:length])}" + (moved(*far) if far else ""))


def location_read(text):
    """What reading the text answers; the digest is that stretch of it."""
    refusal, value, start, end, digest = texts.read_location(text)
    return outcome(refusal, value, f"read {start} {end} {shown(text[digest:digest + 32])}")


def allele_read(text):
    """What reading the text answers: two stretches of it."""
    refusal, value, location, sequence, length = texts.read_allele(text)
    stretches = text[location:location + 32], text[sequence:sequence + length]
    return outcome(refusal, value, "read {} {}".format(*map(shown, stretches)))


def published_lines():
    # no sequence is at hand, so a location's is as long as one may be
    for sequence, start, end, _ in published.LOCATIONS:
        arguments = model.REFERENCE_LIMIT, start, end, sequence
        given = f"{model.REFERENCE_LIMIT} {start} {end} {shown(sequence)}"
        read = location_read(texts.location(start, end, sequence))
        yield f"location-text {given} {written(texts.location_text, *arguments)} {read}"
        yield f"location-identifier {given} {written(texts.location_identifier, *arguments)}"
    # and an allele is laid out from its location's digest and its replacement
    for allele in published.ALLELES:
        text, given = allele.text(), f"{shown(allele.location.digest())} {shown(allele.replacement)}"
        identifier = texts.allele_named(text)
        yield f"laid-allele {given} written {len(text)} {shown(text)} {allele_read(text)}"
        yield f"laid-allele-identifier {given} written {len(identifier)} {shown(identifier)}"


def allele_lines():
    for reference, start, end, replacement in (
        # document 01's cases 1, 4 and 10
        (REPEAT, 4, 4, b"CAG"), (REPEAT, 2, 3, b"T"), (REPEAT, 1, 4, b"CAG"),
        # a stop gained, a stop beside the last one, a gap among gaps
        (PROTEIN, 8, 9, b"*"), (PROTEIN, 11, 11, b"*"), (GAPS, 3, 3, b"-"),
    ):
        digest = model.digest(reference)
        arguments = reference, start, end, replacement, digest
        given = f"{shown(reference)} {start} {end} {shown(replacement)} {shown(digest)}"
        *_, text = texts.serialized(*arguments)
        yield f"allele-text {given} {written(texts.allele_text, *arguments)} {allele_read(text)}"
        yield f"allele-identifier {given} {written(texts.allele_identifier, *arguments)}"


def read_lines():
    for text in (
        b"", b'{"interval":{"end":10,"sta', b'{"interval":{"end":00,', b'{"interval":{"end":1000000001,',
        b'{"interval":{"end":5,"start":50,', b'{"interval":{"end":5,"start":6,',
        texts.location(1, 10, ACGT_DIGEST + b"A"), texts.location(1, 10, ACGT_DIGEST) + b"}",
    ):
        yield f"read-location {shown(text)} {location_read(text)}"
    allele = texts.allele(ACGT_DIGEST, b"CAG")
    sequences = b"*CAG-", b"-CAG*", b"*", b"-", b")AG", b"*+", b"C,G", b"CA-."
    for text in (
        texts.allele(ACGT_DIGEST[:-1], b""), texts.allele(ACGT_DIGEST, b"CAg"), allele[:-1], allele + b"}",
        *(texts.allele(ACGT_DIGEST, sequence) for sequence in sequences), allele.replace(b'"CAG"', b'"CAG"*'),
    ):
        yield f"read-allele {shown(text)} {allele_read(text)}"


for lines in (normal_form_lines, published_lines, allele_lines, read_lines):
    for line in lines():
        print(line)

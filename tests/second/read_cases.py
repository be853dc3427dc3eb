"""Calls that read a text: accepted texts, the same damaged at every byte, and holes filled with other things."""
from itertools import chain, product

import alleles
import model
import published
import texts
from arguments import EDGES, FOREIGN, any_residues, with_byte
from exchange import Case, Untouched
from text_cases import POWERS, some_digest

LIMIT = model.REFERENCE_LIMIT
# What may come in the place of a byte or before it: digits, quotes, the ends of alphabets and beside them.
PUT = b'0159"\',:{} AZaz_*-)+.@[\x00\xff'
# In the place of a number: many are none, or above a limit, or within it where they are cut to 32 or 64 bits.
NUMBERS = (
    b"", b"0", b"00", b"01", b"5", b"6", b"9", b"10", b"010", b"49", b"50", b"51", b"500", b"99", b"100",
    b"999999999", b"1000000000", b"1000000001", b"1000000009", b"1000000010", b"1100000000", b"2000000000",
    b"9999999999", b"10000000000", b"01000000000", b"4294967296", b"4294967301", b"18446744073709551615",
    b"18446744073709551616", b"18446744073709551621", b"340282366920938463463374607431768211461",
    b"-1", b"+1", b" 1", b"1 ", b"1.0", b"1e3", b"0x1", b'"1"', b"null",
)


def read_location(text):
    return Case("fv_read_location", b"R", (), (text,), texts.read_location(text), ())


def read_allele(text):
    return Case("fv_read_allele", b"r", (), (text,), texts.read_allele(text), ())


def damaged(text):
    """The text cut, without a byte, with another one, and with one more, everywhere."""
    yield text
    for i in range(len(text) + 1):
        yield text[:i]
        yield text[:i] + text[i + 1:]
        for byte in PUT:
            yield with_byte(text, i, byte)
            yield text[:i] + bytes([byte]) + text[i:]


def every_byte(text):
    """The text with every byte in the place of each one, and before it."""
    for i, byte in product(range(len(text) + 1), range(256)):
        yield with_byte(text, i, byte)
        yield text[:i] + bytes([byte]) + text[i:]


def damaged_more(rng, text):
    """The text with two or three bytes changed, lost or put in."""
    for _ in range(rng.choice((2, 2, 3))):
        i = rng.randrange(len(text) + 1)
        text = text[:i] + rng.choice((b"", bytes([rng.choice(PUT)]), text[i:i + 2] * 2)) + text[i + rng.randint(0, 1):]
    return text


def filled_digests(rng):
    """Every length to 40, and every byte at some offsets."""
    digest = some_digest(rng) + some_digest(rng)
    for length in range(41):
        yield digest[:length]
    for byte in range(256):
        for offset in (0, 1, 15, 16, 31):
            yield with_byte(digest[:32], offset, byte)


def one_digit_off(rng, number):
    """The number's decimal with one digit more, fewer or other."""
    text = b"%d" % number
    i = rng.randrange(len(text))
    digit = rng.choice(b"0123456789")
    return rng.choice((with_byte(text, i, digit), text[:i] + bytes([digit]) + text[i:], text[:i] + text[i + 1:]))


def number_pairs(rng):
    """An end and a start as they stand in a text."""
    yield from product(NUMBERS, repeat=2)
    yield from product([b"%d" % number for number in range(111)], repeat=2)
    for end in POWERS:
        for start in (0, end // 10, end - 1, end, end + 1, 10 * end, 10 * end + 9, end + 2**32, end + 2**64):
            yield b"%d" % end, b"%d" % start
    for _ in range(8000):
        end = rng.randint(0, 10**rng.randint(0, 9))
        yield b"%d" % end, one_digit_off(rng, end)
        yield one_digit_off(rng, rng.choice((end, LIMIT))), b"%d" % rng.randint(0, end)


def other_json():
    """The same things said in JSON otherwise."""
    location, allele = published.LOCATIONS[0].text(), published.ALLELES[0].text()
    for text in (location, allele):
        yield from (text.replace(b":", b": "), text.replace(b",", b", "), b" " + text, text + b"\n", text * 2)
        yield from (text.replace(b"Se", b"\\u0053e"), text.replace(b'"', b"'"), text.lower(), text.upper(), b"\xef\xbb\xbf" + text)
    yield location.replace(b'"sequence_id":"', b'"sequence_id":"ga4gh:SQ.')
    yield location.replace(b'"end":44908822,"start":44908821', b'"start":44908821,"end":44908822')
    yield allele.replace(b'"location":"', b'"location":"ga4gh:VSL.')


def short_texts():
    yield b""
    for byte in range(256):
        yield bytes([byte])
        yield b"{" + bytes([byte])


def location_texts(rng):
    some = [(0, 0), (5, 50), (7, 7), (123, 4567), (LIMIT - 1, LIMIT)]
    yield from chain.from_iterable(damaged(texts.location(*positions, some_digest(rng))) for positions in some)
    yield from (location.text() for location in published.LOCATIONS)
    yield from (texts.location(start, end, some_digest(rng)) for start, end in product(POWERS, repeat=2))
    for end, start in number_pairs(rng):
        yield texts.LOCATION % (end, start, some_digest(rng))
    for digest in filled_digests(rng):
        yield texts.LOCATION % (b"10", b"1", digest)
    yield from every_byte(texts.location(45, 450, some_digest(rng)))
    for _ in range(12_000):
        yield damaged_more(rng, texts.location(*rng.choice(some), some_digest(rng)))


def allele_texts(rng):
    some = (b"", b"*", b"-CAGCAGCAG*", model.RESIDUES)
    yield from chain.from_iterable(damaged(texts.allele(some_digest(rng), replacement)) for replacement in some)
    yield from (allele.text() for allele in published.ALLELES)
    for length in (*range(70), *EDGES, *alleles.STEPS, 100_000):
        text = texts.allele(some_digest(rng), any_residues(rng, length))
        yield from (text, text[:-1], text + b"}", text[:68 + length])
    for byte, offset in product(range(256), (0, 1, 7, 8, 31, 32, 63, 64)):
        yield texts.allele(some_digest(rng), with_byte(any_residues(rng, 65), offset, byte))
    for byte, offset in product(FOREIGN, (127, 128, 511, 512, 1023, 1024, 1499)):
        yield texts.allele(some_digest(rng), with_byte(any_residues(rng, 1500), offset, byte))
    for digest in filled_digests(rng):
        yield texts.allele(digest, b"CAG")
    yield from every_byte(texts.allele(some_digest(rng), b"*Z-"))
    for _ in range(12_000):
        yield damaged_more(rng, texts.allele(some_digest(rng), rng.choice(some)))


def untouched_texts(read, code):
    """Zero bytes, of which the first one ends every reading."""
    for length in (1, 100, LIMIT, 2**32 + 100):
        yield Case(read, code, (), (Untouched(length),), (8, 0, 0, 0, 0), ())


def read_location_cases(rng):
    for text in chain(location_texts(rng), short_texts(), other_json()):
        yield read_location(text)
    yield from untouched_texts("fv_read_location", b"R")


def read_allele_cases(rng):
    for text in chain(allele_texts(rng), short_texts(), other_json()):
        yield read_allele(text)
    yield from untouched_texts("fv_read_allele", b"r")

"""Prints what the program `digest_vectors` has to print."""
import base64
import hashlib

import model
from shown import outcome, shown

FIPS_896_BITS = (b"abcdefghbcdefghicdefghijdefghijkefghijklfghijklmghijklmn"
                 b"hijklmnoijklmnopjklmnopqklmnopqrlmnopqrsmnopqrstnopqrstu")
ACGT_DIGEST = b"aKF498dAxcJAqme6QYQ7EZ07-fiw8Kw2"
LAST_U64 = 2**64 - 1


def replaced(text, changes):
    """The text with other characters at some offsets."""
    text = bytearray(text)
    for offset, character in changes.items():
        text[offset:offset + 1] = character
    return bytes(text)


def sha512_lines():
    # the messages that FIPS 180-4 and its examples publish
    for name, message in (("empty", b""), ("abc", b"abc"), ("896-bit", FIPS_896_BITS), ("million-a", b"a" * 1_000_000)):
        yield f"sha512 {name} {hashlib.sha512(message).hexdigest()}"
    # every padding, from none to over two blocks, whole and in two parts
    for n in range(301):
        message = bytes((i * 7 + n) % 256 for i in range(n))
        whole = hashlib.sha512(message).hexdigest()
        cut = n * 5 // 7
        parts = hashlib.sha512(message[:cut])
        parts.update(message[cut:])
        yield f"sha512 {n} {whole} {'same' if parts.hexdigest() == whole else 'differs'}"


def base64url_lines():
    for three in ("14fb9c", "03d97e", "666f6f", "626172", "fbefbe", "ffffff", "000000", "0010ff"):
        yield f"base64url {three} {base64.urlsafe_b64encode(bytes.fromhex(three)).decode('ascii')}"


def identifier_lines():
    for reference, place, room in (
        (b"ACGT", 0, 41), (b"", 0, 41), (b"ACGT", 1, 42), (b"ACGT", 1, 41), (b"ACGT", 41, 41), (b"ACGT", 42, 41),
        (b"ACGT", LAST_U64, 41), (b"ACGT", 0, 40), (b"ACGT", 0, 0), (b"aCGT", 0, 0), (b"ACG@", 0, 41),
        (b"ACG[", 0, 41), (b"AZ", 0, 41), (b"A`Z", 5, 0),
        # stops and gaps, and the bytes beside them
        (b"MKTAYIAKQR*", 0, 41), (b"*", 0, 41), (b"-", 0, 41), (b"*ACGT-", 0, 41),
        (b")ACG", 0, 41), (b"ACG+", 0, 41), (b"A,C", 0, 41), (b"ACG.", 0, 41),
    ):
        refusal, value, length, out = model.sequence_identifier(reference, bytes(room), place)
        text = out[place:place + length].decode("ascii")
        yield f"identifier {shown(reference)} place {place} room {room} " + outcome(refusal, value, f"written {length} {text}")


def running_lines():
    for part, total in (
        (b"", 1_000_000_000), (b"A", 999_999_999), (b"AC", 999_999_999), (b"", 1_000_000_001), (b"A", 1_000_000_001),
        (b"A", LAST_U64), (b"ACgT", 0), (b"ACgT", 999_999_996), (b"ACgT", 999_999_997), (b"gA", 5),
        (b"*-", 999_999_998), (b"*-", 999_999_999), (b"*-.", 5),
    ):
        yield f"part {shown(part)} total {total} " + outcome(*model.fed(total, part), "taken")
    for total, place, room in (
        (1_000_000_000, 0, 41), (1_000_000_001, 0, 0), (1_000_000_001, 0, 41), (0, 0, 40), (0, 1, 41), (0, 42, 41),
        (128, 3, 44), (LAST_U64, 0, 41),
    ):
        yield f"finish total {total} place {place} room {room} " + outcome(*model.finished(total, room, place), "written 41")


def parts_lines():
    # three parts one after another; one that is refused leaves no trace
    for parts in (
        (b"AC", b"GT", b""), (b"", b"ACGT", b""), (b"ACGT", b"", b""), (b"A", b"C", b"GT"), (b"AC", b"xx", b"GT"),
        # cut between a stop and a gap, and the same whole
        (b"AC*", b"-GT", b""), (b"AC*", b"-+", b"-GT"), (b"", b"AC*-GT", b""),
    ):
        taken = b""
        for part in parts:
            if model.fed(len(taken), part) == model.ACCEPTED:
                taken += part
        *_, out = model.sequence_identifier(taken, bytes(41), 0)
        yield f"parts {' '.join(map(shown, parts))} written 41 {out.decode('ascii')}"


def digest_text_lines():
    good = ACGT_DIGEST
    for text in (
        good, good[:-1], good + b"A", b"",
        replaced(good, {0: b"+"}), replaced(good, {31: b"/"}), replaced(good, {5: b"=", 31: b"@"}),
        b"_" * 32, b"[" * 32, b"ga4gh:SQ." + good,
        replaced(good, {31: b"{"}), replaced(good, {0: b":"}), replaced(good, {16: b"`"}),
    ):
        yield f"digest-text {shown(text)} " + outcome(*model.digest_text(text), "taken")


for lines in (sha512_lines, base64url_lines, identifier_lines, running_lines, parts_lines, digest_text_lines):
    for line in lines():
        print(line)

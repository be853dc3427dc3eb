"""SHA-512 a block at a time, from FIPS 180-4: hashlib begins at one hash value only, a lent state at any.

The names are the standard's; a number in parentheses is its section.
"""
import hashlib
from math import isqrt
from struct import pack, unpack

BLOCK_SIZE = 128
MODULUS = 2**64


def primes(count):
    """The first so many primes."""
    found, candidate = [], 2
    while len(found) < count:
        if all(candidate % prime for prime in found):
            found.append(candidate)
        candidate += 1
    return found


def cube_root(n):
    """The largest number whose cube is at most n."""
    root = 0
    for bit in reversed(range(n.bit_length() // 3 + 1)):
        if (root + 2**bit)**3 <= n:
            root += 2**bit
    return root


# (5.3.5, 4.2.3) the first 64 bits of the fractional parts of the primes' square roots, and cube roots
INITIAL = tuple(isqrt(prime << 128) % MODULUS for prime in primes(8))
K = tuple(cube_root(prime << 192) % MODULUS for prime in primes(80))


# (4.1.3) A word rotated to the right is a stretch of the word written twice.
def big_sigma_0(x):
    twice = x << 64 | x
    return (twice >> 28 ^ twice >> 34 ^ twice >> 39) % MODULUS


def big_sigma_1(x):
    twice = x << 64 | x
    return (twice >> 14 ^ twice >> 18 ^ twice >> 41) % MODULUS


def sigma_0(x):
    twice = x << 64 | x
    return (twice >> 1 ^ twice >> 8) % MODULUS ^ x >> 7


def sigma_1(x):
    twice = x << 64 | x
    return (twice >> 19 ^ twice >> 61) % MODULUS ^ x >> 6


def schedule(block):
    """(6.4.2, step 1) the eighty words of the message schedule."""
    w = list(unpack(">16Q", block))
    for t in range(16, 80):
        w.append((sigma_1(w[t - 2]) + w[t - 7] + sigma_0(w[t - 15]) + w[t - 16]) % MODULUS)
    return w


def compressed(words, block):
    """(6.4.2, steps 2 to 4) the hash value after one more block."""
    a, b, c, d, e, f, g, h = words
    for k, w in zip(K, schedule(block)):
        t_1 = h + big_sigma_1(e) + (e & f ^ ~e & g) + k + w
        t_2 = big_sigma_0(a) + (a & b ^ a & c ^ b & c)
        a, b, c, d, e, f, g, h = (t_1 + t_2) % MODULUS, a, b, c, (d + t_1) % MODULUS, e, f, g
    return tuple((old + new) % MODULUS for old, new in zip(words, (a, b, c, d, e, f, g, h)))


def hashed(words, message):
    """The hash value after the message's whole blocks, and the bytes behind them."""
    while len(message) >= BLOCK_SIZE:
        words, message = compressed(words, message[:BLOCK_SIZE]), message[BLOCK_SIZE:]
    return words, message


def padding(length):
    """(5.1.2) what is appended to a message of so many bytes: a bit 1, zeros, and the length in bits in 16 bytes."""
    zeros = -(length + 1 + 16) % BLOCK_SIZE
    return b"\x80" + bytes(zeros) + (8 * length).to_bytes(16, "big")


def finished(words, waiting, total):
    """The digest of a message of so many bytes, of which these wait behind the whole blocks."""
    words, _ = hashed(words, waiting + padding(total))
    return pack(">8Q", *words)


def check():
    """Ends the program where hashlib says otherwise of a message that begins as every message does."""
    for length in range(3 * BLOCK_SIZE):
        message = bytes(7 * i % 256 for i in range(length))
        if finished(*hashed(INITIAL, message), length) != hashlib.sha512(message).digest():
            raise SystemExit(f"sha512: FAILED: the digest of {length} bytes is not hashlib's")

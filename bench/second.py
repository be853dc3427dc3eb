"""Prints how many allele identifiers the second program makes in a second of the processor's time.

The alleles are those of bench.c; the best of five turns counts.
"""
import time

import model
import texts

TURNS = 5
ROUNDS = 1000
REPEAT = b"TCAGCAGCAGT"
ALLELES = ((4, 4, b"CAG"), (2, 3, b"T"), (1, 4, b"CAG"))


def rate():
    digest, out = model.digest(REPEAT), bytes(41)
    began = time.process_time()
    for _ in range(ROUNDS):
        for allele in ALLELES:
            texts.allele_identifier(REPEAT, *allele, digest, out, 0)
    return ROUNDS * len(ALLELES) / (time.process_time() - began)


print(f"{max(rate() for _ in range(TURNS)):.0f}")

/*
 * Fearnavult: the calls that other software links.
 *
 * `./install PREFIX` puts this header into PREFIX/include, and libfearnavult.a, libfearnavult.so and
 * pkgconfig/fearnavult.pc into PREFIX/lib. The library is for x86-64, allocates nothing, has no state of its
 * own, and calls only memcpy and memset of your C library. examples/register.c is a whole program that uses
 * it, examples/register.py the same in Python, and examples/vcf.c one that takes VCF lines.
 *
 * A slice is a pointer and then its length in bytes. The pointer must not be null, even where the
 * length is 0, and that many bytes must be readable there (and writable, where it is not const)
 * for as long as the call runs. A slice that is written, one that is not const, must not overlap any other
 * slice of the call; two that are only read may overlap. All memory stays the caller's: no call keeps a
 * pointer, and calls on different memory may run at the same time.
 *
 * Each answer but that of fv_running_begin begins with two numbers:
 *   refusal  0 where the call is accepted, else the number of the reason why it is refused, an fv_refusal;
 *   value    what that reason returns with it, and 0 where the call is accepted.
 * A call tests its reasons in the order in which it lists them, and answers the first that holds. A call
 * that is refused writes no byte, and all that it answers after `value` is 0. Any value may be given for
 * a number: a start, an end, a place, a length, a capacity.
 *
 * A call with an `out` writes from out[place] on. The bytes before and after what it writes stay as they
 * were, and no zero byte is put at the end.
 *
 * A residue is a byte from A to Z, * (a stop) or - (a gap), and every other byte is foreign. A digest is 32
 * base64url characters (A to Z, a to z, 0 to 9, - and _): the first 24 bytes of a SHA-512, without padding.
 * Positions are interbase: 0 lies before the first residue of a reference, its length after the last.
 */
#ifndef FEARNAVULT_H
#define FEARNAVULT_H

#include <stddef.h>
#include <stdint.h>

#define FV_VERSION_MAJOR 0
#define FV_VERSION_MINOR 5
#define FV_VERSION_PATCH 0

/* The three as a text, with a full stop between them. */
#define FV_VERSION FV_VERSION_JOINED(FV_VERSION_MAJOR, FV_VERSION_MINOR, FV_VERSION_PATCH)
#define FV_VERSION_JOINED(major, minor, patch) FV_VERSION_QUOTED(major, minor, patch)
#define FV_VERSION_QUOTED(major, minor, patch) #major "." #minor "." #patch

/* How many bytes the texts have whose lengths are fixed. An identifier's last 32 are its digest. */
#define FV_DIGEST_LENGTH 32
#define FV_IDENTIFIER_LENGTH 41          /* a sequence's or an allele's */
#define FV_LOCATION_IDENTIFIER_LENGTH 42

/* The limits. */
#define FV_REFERENCE_LIMIT 1000000000 /* residues of a reference */
#define FV_REPLACEMENT_LIMIT 1000000  /* residues of a replacement that is given */
#define FV_COUNT_LIMIT 10000          /* records of an image, and journal entries likewise */
#define FV_POOL_LIMIT 10000000        /* bytes of an image's pool */

/*
 * How many bytes an image with these capacities has, as a uint64_t: 10,240,076 at most for capacities within
 * the limits, which fv_blank tests. It is a constant where they are. Past the limits it is the true sum while
 * that is below 2 to the 64th, as with any three capacities below 2 to the 59th.
 */
#define FV_IMAGE_SIZE(records, journal, pool) \
    (UINT64_C(76) + UINT64_C(20) * (records) + UINT64_C(4) * (journal) + (pool))

#ifdef __cplusplus
extern "C" {
#endif

/* Why a call is refused. Each call says what `value` tells beside it. */
enum fv_refusal {
    FV_ACCEPTED = 0,           /* it is not */
    FV_OVER_LIMIT = 1,         /* a reference or a replacement is over its limit */
    FV_START_ABOVE_END = 2,    /* the start is above the end */
    FV_END_PAST_REFERENCE = 3, /* the end is past the reference */
    FV_FOREIGN_INPUT = 4,      /* a byte that was given is no residue */
    FV_FOREIGN_NORMAL = 5,     /* a byte of the normal replacement is no residue */
    FV_NO_ROOM = 6,            /* `out` has too few bytes from `place` on */
    FV_BAD_DIGEST = 7,         /* not 32 base64url characters */
    FV_BAD_TEXT = 8,           /* not a location text, or not an allele text */
    FV_BAD_CAPACITY = 9,       /* a capacity is over its limit, or the image has too few bytes for them */
    FV_NOT_WELL_FORMED = 10,   /* the image is not well formed */
    FV_OTHER_REFERENCE = 11,   /* the image is of a reference with another digest or length */
    FV_NO_CHANGE = 12,         /* the allele makes the reference itself */
    FV_NO_RECORD = 13,         /* all records are taken */
    FV_NO_POOL_ROOM = 14,      /* the pool has too few bytes left */
    FV_NO_JOURNAL_ROOM = 15,   /* all journal entries are in use */
    FV_NO_SUCH_NUMBER = 16,    /* the number is not issued */
    FV_NOT_ACTIVE = 17,        /* the number is not active */
    FV_NOTHING_TO_UNDO = 18,   /* the journal has no change */
    FV_BAD_LINE = 19,          /* not a VCF data line on this reference */
    FV_REF_DIFFERS = 20,       /* a letter of REF is not the reference's */
    FV_BAD_ALTERNATE = 21      /* no such place in ALT, or what stands there is not all letters */
};

/* What an allele does to its reference. */
enum fv_kind {
    FV_UNCHANGED = 0,    /* it makes the reference itself */
    FV_SUBSTITUTION = 1, /* residues give way to others, as many or not */
    FV_INDEL = 2         /* residues are only put in, or only taken out */
};

/* How an entry found an allele in the register. */
enum fv_answer {
    FV_NEW = 1,   /* under no number: the next is issued */
    FV_AGAIN = 2, /* under an inactive number, which is active again */
    FV_KNOWN = 3  /* under an active number */
};

/* What a number's record says of it. */
enum fv_status {
    FV_INACTIVE = 0, /* withdrawn, or its entry taken back */
    FV_ACTIVE = 1
};

/* The answer of a call that is accepted or refused, and says nothing else. */
typedef struct {
    uint64_t refusal;
    uint64_t value;
} fv_outcome;

/* The answer of a call that writes a text: `length` is how many bytes it wrote. */
typedef struct {
    uint64_t refusal;
    uint64_t value;
    uint64_t length;
} fv_written;

/*
 * Writes the identifier of a whole reference, which may be empty: the 9 bytes `ga4gh:SQ.`, then the digest
 * of its residues. That is 41 bytes.
 *
 * Accepted: { 0, 0, 41 }. Refused, in this order:
 *   1, value 0    the reference has over 1,000,000,000 bytes;
 *   4, value i    reference[i] is foreign, the first such byte;
 *   6, value 41   `out` has fewer bytes than that from `place` on, or `place` is past its end.
 *
 * With the reference `ACGT`, place 0 and room for 41 bytes, `out` then holds
 * ga4gh:SQ.aKF498dAxcJAqme6QYQ7EZ07-fiw8Kw2
 */
fv_written fv_sequence_identifier(const uint8_t *reference, size_t reference_len,
                                  uint8_t *out, size_t out_len, uint64_t place);

/*
 * A running digest: the state between the parts of a reference that comes in parts. Whoever declares one
 * owns it, may copy it and may save its bytes; the calls below read and write the one that they are lent.
 * The pointer must not be null and must be aligned as C aligns it, and the state must not overlap a slice
 * of the same call. Whatever it holds, no call faults.
 */
typedef struct {
    uint64_t words[8];  /* SHA-512's hash value after the whole blocks */
    uint8_t block[128]; /* the total % 128 bytes that wait for the rest of their block, then zeros */
    uint64_t total;     /* how many residues so far */
} fv_running;

/* Where the compiler can tell: its layout is the archive's. */
#if defined(__cplusplus) && __cplusplus >= 201103L
#define FV_ASSERT static_assert
#elif defined(__STDC_VERSION__) && __STDC_VERSION__ >= 201112L
#define FV_ASSERT _Static_assert
#endif
#ifdef FV_ASSERT
FV_ASSERT(sizeof(fv_running) == 200, "an fv_running has 200 bytes");
FV_ASSERT(offsetof(fv_running, words) == 0, "its words begin at 0");
FV_ASSERT(offsetof(fv_running, block) == 64, "its block begins at 64");
FV_ASSERT(offsetof(fv_running, total) == 192, "its total begins at 192");
#undef FV_ASSERT
#endif

/*
 * Answers the running digest of no part yet. It is never refused.
 *
 * Finished at once, it gives the identifier of the empty reference,
 * ga4gh:SQ.z4PhNX7vuL3xVChQ1m2AB9Yg5AULVxXc
 */
fv_running fv_running_begin(void);

/*
 * Takes one more part of the reference, which may be empty. Wherever a reference is cut, its identifier
 * is that of the whole. Where the part is refused, every byte of `state` stays as it was.
 *
 * Accepted: { 0, 0 }. Refused, in this order:
 *   1, value 0    state->total and part_len together are over 1,000,000,000;
 *   4, value i    part[i] is foreign, the first such byte.
 *
 * A state just begun takes `AC` and then `GT`; between them `Gx` is refused { 4, 1 } and changes nothing.
 */
fv_outcome fv_running_feed(fv_running *state, const uint8_t *part, size_t part_len);

/*
 * Writes the identifier of all parts together, as fv_sequence_identifier does for a whole reference: 41
 * bytes. The state is only read, so that more parts may follow.
 *
 * Accepted: { 0, 0, 41 }. Refused, in this order:
 *   1, value 0    state->total is over 1,000,000,000;
 *   6, value 41   `out` has fewer bytes than that from `place` on, or `place` is past its end.
 *
 * After the parts `AC` and `GT` it writes
 * ga4gh:SQ.aKF498dAxcJAqme6QYQ7EZ07-fiw8Kw2
 */
fv_written fv_running_finish(const fv_running *state, uint8_t *out, size_t out_len, uint64_t place);

/*
 * A normal form, and how far it moved. On either side the normal interval has widened by the residues that
 * it has past the given interval, or has shrunk by those that it leaves out of it, or neither: at most one of
 * the two numbers of a side is above 0. An unchanged allele has four zeros.
 */
typedef struct {
    uint64_t refusal;
    uint64_t value;
    uint64_t kind;          /* an fv_kind: 0 unchanged, 1 substitution, 2 indel */
    uint64_t start;
    uint64_t end;
    uint64_t length;        /* of the normal replacement: how many bytes the call wrote */
    uint64_t left_widened;  /* the given start less this start, or 0 */
    uint64_t left_shrunk;   /* this start less the given start, or 0 */
    uint64_t right_widened; /* this end less the given end, or 0 */
    uint64_t right_shrunk;  /* the given end less this end, or 0 */
} fv_form;

/*
 * Answers the fully justified normal form of an allele, and writes its replacement.
 *
 * An allele puts a replacement in the place of the residues between two positions of a reference. The
 * reference may be empty, start and end may be equal (an insertion), and the replacement may be empty (a
 * deletion).
 *
 * What the altered sequence has in common with the reference at either end is left out, but an insertion or
 * a deletion that might stand at several places of a repeat covers them all. So two alleles that make the
 * same sequence, other than the reference itself, have the same normal form. An allele that changes nothing
 * is answered as it was given, with kind 0.
 *
 * Where the normal replacement is empty, nothing is written, and `place` may be out_len. Of the reference,
 * only the bytes that come into the normal replacement need to be residues. The time grows with what is
 * trimmed, rolled over and written, not with the length of the reference.
 *
 * Accepted: { 0, 0, kind, start, end, length, left_widened, left_shrunk, right_widened, right_shrunk }.
 * Refused, in this order:
 *   1, value 0    the reference has over 1,000,000,000 bytes;
 *   1, value 1    the replacement has over 1,000,000 bytes;
 *   2, value 0    start is above end;
 *   3, value n    end is above n, the length of the reference;
 *   4, value i    replacement[i] is foreign, the first such byte;
 *   5, value i    byte i of the normal replacement is foreign, the first such byte;
 *   6, value l    the normal replacement has l bytes, and `out` has fewer from `place` on, or `place`
 *                 is past its end.
 * A call with an `out` of 0 bytes and place 0 learns the length that is needed: `value` where it is
 * refused under 6, and 0 where it is accepted.
 *
 * With the reference `TCAGCAGCAGT`, start 4, end 4, the replacement `CAG`, place 0 and room for 12
 * bytes, the answer is { 0, 0, 2, 1, 10, 12, 3, 0, 6, 0 }, and `out` then holds
 * CAGCAGCAGCAG
 * With start 1, end 5 and the replacement `CTGC` it is { 0, 0, 1, 2, 3, 1, 0, 1, 0, 2 }, and `out` then holds
 * T
 * With the protein `MKTAYIAKQR*`, start 3, end 4 and the replacement `*`, a stop gained, it is
 * { 0, 0, 1, 3, 4, 1, 0, 0, 0, 0 }, and `out` then holds
 * *
 * With start 10 and end 10 the stop is rolled over the one that is there, { 0, 0, 2, 10, 11, 2, 0, 0, 1, 0 },
 * and `out` then holds
 * **
 */
fv_form fv_normal_form(const uint8_t *reference, size_t reference_len, uint64_t start, uint64_t end,
                       const uint8_t *replacement, size_t replacement_len,
                       uint8_t *out, size_t out_len, uint64_t place);

/*
 * Writes the text of a location: the interval from start to end, as given, of the sequence that has this
 * digest and `reference_length` residues. It is the serialized form of VRS 1.1.2, with no spaces:
 * {"interval":{"end":E,"start":T,"type":"SimpleInterval"},"sequence_id":"D","type":"SequenceLocation"}
 * where E stands for the end and T for the start, as decimals, and D is the digest, without `ga4gh:SQ.`
 * before it.
 *
 * Accepted: { 0, 0, length }. Refused, in this order:
 *   1, value 0    reference_length is over 1,000,000,000;
 *   2, value 0    start is above end;
 *   3, value n    end is above n, which is reference_length;
 *   7, value 32   the digest does not have 32 bytes;
 *   7, value i    digest[i] is not a base64url character, the first such byte;
 *   6, value l    the text has l bytes, and `out` has fewer from `place` on, or `place` is past its end.
 *
 * With reference_length 11, start 1, end 10 and the digest of `TCAGCAGCAGT`, which is
 * `zR7HujP8jYfpROv-hBLZMHuR_5P4Zo0q`, the 132 bytes are (in one line)
 * {"interval":{"end":10,"start":1,"type":"SimpleInterval"},
 * "sequence_id":"zR7HujP8jYfpROv-hBLZMHuR_5P4Zo0q","type":"SequenceLocation"}
 */
fv_written fv_location_text(uint64_t reference_length, uint64_t start, uint64_t end,
                            const uint8_t *digest, size_t digest_len,
                            uint8_t *out, size_t out_len, uint64_t place);

/*
 * Writes the identifier of a location likewise: the 10 bytes `ga4gh:VSL.`, then the digest of its text,
 * which needs no room. That is 42 bytes.
 *
 * Accepted: { 0, 0, 42 }. Refused as fv_location_text is, but
 *   6, value 42   `out` has fewer bytes than that from `place` on, or `place` is past its end.
 *
 * For the same location it is
 * ga4gh:VSL.NERH7ClkNiblyxw1x18NLM8Y7sEdWeN7
 */
fv_written fv_location_identifier(uint64_t reference_length, uint64_t start, uint64_t end,
                                  const uint8_t *digest, size_t digest_len,
                                  uint8_t *out, size_t out_len, uint64_t place);

/*
 * Writes the text of an allele's normal form (see fv_normal_form; an unchanged allele is written as it
 * was given). It is the serialized form of VRS 1.1.2, with no spaces:
 * {"location":"L","state":{"sequence":"X","type":"SequenceState"},"type":"Allele"}
 * where L is the digest of the normal interval's location text, and X the normal replacement. The digest of
 * the reference is taken as given and not compared with it.
 *
 * Accepted: { 0, 0, length }. Refused, in this order:
 *   1, value 0    the reference has over 1,000,000,000 bytes;
 *   1, value 1    the replacement has over 1,000,000 bytes;
 *   2, value 0    start is above end;
 *   3, value n    end is above n, the length of the reference;
 *   4, value i    replacement[i] is foreign, the first such byte;
 *   7, value 32   the digest does not have 32 bytes;
 *   7, value i    digest[i] is not a base64url character, the first such byte;
 *   5, value i    byte i of the normal replacement is foreign, the first such byte;
 *   6, value l    the text has l bytes, and `out` has fewer from `place` on, or `place` is past its end.
 *
 * With the reference `TCAGCAGCAGT` and its digest `zR7HujP8jYfpROv-hBLZMHuR_5P4Zo0q`, start 4, end 4 and
 * the replacement `CAG`, the 122 bytes are (in one line)
 * {"location":"NERH7ClkNiblyxw1x18NLM8Y7sEdWeN7",
 * "state":{"sequence":"CAGCAGCAGCAG","type":"SequenceState"},"type":"Allele"}
 */
fv_written fv_allele_text(const uint8_t *reference, size_t reference_len, uint64_t start, uint64_t end,
                          const uint8_t *replacement, size_t replacement_len,
                          const uint8_t *digest, size_t digest_len,
                          uint8_t *out, size_t out_len, uint64_t place);

/* The answer of an allele's identifier: how many bytes were written, and how far it moved (see fv_form). */
typedef struct {
    uint64_t refusal;
    uint64_t value;
    uint64_t length;
    uint64_t left_widened;
    uint64_t left_shrunk;
    uint64_t right_widened;
    uint64_t right_shrunk;
} fv_identified;

/*
 * Writes the identifier of an allele likewise: the 9 bytes `ga4gh:VA.`, then the digest of its text,
 * which needs no room. That is 41 bytes. Two alleles that make the same sequence, other than the
 * reference itself, have the same identifier; how far each moved is its own.
 *
 * Accepted: { 0, 0, 41, left_widened, left_shrunk, right_widened, right_shrunk }. Refused as fv_allele_text
 * is, but
 *   6, value 41   `out` has fewer bytes than that from `place` on, or `place` is past its end.
 *
 * For the same allele the answer is { 0, 0, 41, 3, 0, 6, 0 }, and the identifier
 * ga4gh:VA.AI9QWkPg6MybxSaPDP38hunMAsLzNpmS
 */
fv_identified fv_allele_identifier(const uint8_t *reference, size_t reference_len, uint64_t start, uint64_t end,
                                   const uint8_t *replacement, size_t replacement_len,
                                   const uint8_t *digest, size_t digest_len,
                                   uint8_t *out, size_t out_len, uint64_t place);

/* What a location text says. */
typedef struct {
    uint64_t refusal;
    uint64_t value;
    uint64_t start;
    uint64_t end;
    uint64_t digest; /* the offset of D in the text, where its 32 characters stand */
} fv_location;

/*
 * Reads a location text: the whole of `text`, laid out as fv_location_text writes it. T is no more than E,
 * E no more than 1,000,000,000, both without leading zeros, and D any 32 base64url characters. Nothing is
 * written.
 *
 * Accepted: { 0, 0, start, end, digest }. Refused:
 *   8, value l    any other text; l is the length of its longest prefix that begins an accepted text.
 *
 * The text of fv_location_text's example is answered { 0, 0, 1, 10, 72 }. With `"start":11` in the place of
 * `"start":1` it is refused { 8, 31, 0, 0, 0 }: after the 31 bytes `{"interval":{"end":10,"start":1` a
 * second 1 would make the start larger than the end. Bytes after an accepted text are refused with the
 * length of that text.
 */
fv_location fv_read_location(const uint8_t *text, size_t text_len);

/* Where the parts of an allele text lie. */
typedef struct {
    uint64_t refusal;
    uint64_t value;
    uint64_t location; /* the offset of L in the text, where its 32 characters stand */
    uint64_t sequence; /* the offset of X in the text */
    uint64_t length;   /* of X */
} fv_allele;

/*
 * Reads an allele text: the whole of `text`, laid out as fv_allele_text writes it. L is any 32 base64url
 * characters, and X has 0 to 1,001,000,000 residues. Nothing is written.
 *
 * Accepted: { 0, 0, 13, 68, length }. Refused:
 *   8, value l    any other text; l is the length of its longest prefix that begins an accepted text.
 *
 * The text of fv_allele_text's example is answered { 0, 0, 13, 68, 12 }. Without its last byte it is
 * refused { 8, 121, 0, 0, 0 }, and so it is with another byte there.
 */
fv_allele fv_read_allele(const uint8_t *text, size_t text_len);

/*
 * The register: alleles of one reference, each under a number, in an image that the caller lends.
 *
 * An image is a buffer of the caller's, who makes it, keeps it between calls and saves it byte for byte.
 * Numbers in it are 32 bits, unsigned, the least significant byte first, and are read and written byte by
 * byte, so it needs no alignment. C, J and P are its capacities:
 *   at 0           the edition, 1
 *   at 4, 8, 12    C, at most 10,000; how many numbers are issued; where the records begin, 76
 *   at 16, 20, 24  J, at most 10,000; the journal count; where the journal begins, 76 + 20C
 *   at 28, 32, 36  P, at most 10,000,000; how much of the pool is used; where the pool begins, 76 + 20C + 4J
 *   at 40          the length of the reference, at most 1,000,000,000
 *   at 44 to 75    the digest of the reference, 32 base64url characters
 * That is 76 + 20C + 4J + P bytes, 10,240,076 at most; the buffer may have more.
 *
 * A record is five numbers, 20 bytes: start, end, the offset of the replacement in the pool, its length,
 * and the status, 1 active or 0 inactive. Record i, from 1, begins at 76 + 20 (i - 1). A journal entry is
 * the number that a change was about, 4 bytes. The pool has the replacements, one after the other.
 *
 * An image is well formed where its header is as above, no count is above its capacity, and the buffer
 * reaches to the end of the pool; where each record issued has start <= end <= the reference's length,
 * status 0 or 1, an offset that is the sum of the lengths before it, and residues only; where these
 * lengths together are the pool used; and where each journal entry counted is from 1 to the numbers
 * issued. Records not issued, room not used and bytes after the image may hold anything. Every call but
 * fv_blank makes this test first, so that no image, however damaged, makes it fault.
 */

/*
 * Makes a register without numbers at the front of `image`: for a reference of `reference_length` residues
 * that has this digest (without `ga4gh:SQ.` before it), with C `records`, J `journal` and P `pool`. The 76
 * bytes of the header are written, over whatever stood there, a register too, and no others.
 *
 * Accepted: { 0, 0 }. Refused, in this order:
 *   1, value 0    reference_length is over 1,000,000,000;
 *   7, value 32   the digest does not have 32 bytes;
 *   7, value i    digest[i] is not a base64url character, the first such byte;
 *   9, value 0    records or journal is over 10,000, or pool is over 10,000,000;
 *   9, value s    the image needs s bytes, 76 + 20 records + 4 journal + pool, and image_len is less.
 *
 * With reference_length 11, the digest of `TCAGCAGCAGT`, which is `zR7HujP8jYfpROv-hBLZMHuR_5P4Zo0q`, and the
 * capacities 2, 3 and 15, the journal begins at 116 and the pool at 128. 143 bytes are needed: with an
 * image_len of 142 the answer is { 9, 143 }, with 143 it is { 0, 0 }.
 */
fv_outcome fv_blank(uint8_t *image, size_t image_len, uint64_t reference_length,
                    const uint8_t *digest, size_t digest_len,
                    uint64_t records, uint64_t journal, uint64_t pool);

/*
 * The answer of an entry, and how far the allele moved (see fv_form) from the interval that this call was given.
 * The image does not keep it.
 */
typedef struct {
    uint64_t refusal;
    uint64_t value;
    uint64_t answer; /* an fv_answer: 1 new, 2 again, 3 known */
    uint64_t number; /* the allele's, from 1 */
    uint64_t left_widened;
    uint64_t left_shrunk;
    uint64_t right_widened;
    uint64_t right_shrunk;
} fv_entered;

/*
 * Enters an allele of the image's reference in its normal form (see fv_normal_form). Records are compared
 * with it by start, end and replacement:
 *   known   an active record is equal: the lowest such number is answered, and nothing is written;
 *   again   none is, but an inactive one: the lowest such number becomes active. Its status, the next
 *           journal entry and the journal count are written;
 *   new     none is equal: the next number is issued, and is active. Its record, its residues in the
 *           pool, the next journal entry and the three counts are written.
 * All other bytes of the image stay as they were.
 *
 * The digest is that of the reference. It is compared with the header's and not with the reference. It
 * must not be lent as `image + 44`, since that overlaps the image.
 *
 * Accepted: { 0, 0, answer, number, left_widened, left_shrunk, right_widened, right_shrunk }. Refused, in this
 * order:
 *   10, value 0   the image is not well formed;
 *   11, value 0   the digest is not the header's 32 bytes;
 *   11, value 1   the reference has another length than the header says, as one over 1,000,000,000 has;
 *   1, value 1    the replacement has over 1,000,000 bytes;
 *   2, value 0    start is above end;
 *   3, value n    end is above n, the length of the reference;
 *   4, value i    replacement[i] is foreign, the first such byte;
 *   5, value i    byte i of the normal replacement is foreign, the first such byte;
 *   12, value 0   the allele is unchanged: it makes the reference itself;
 * then, where it would be new,
 *   13, value C   all C records are taken;
 *   14, value P   the pool, of P bytes, has fewer left than the normal replacement has;
 * and where it would be new or again,
 *   15, value J   all J journal entries are in use.
 *
 * On fv_blank's example, with the reference `TCAGCAGCAGT` and its digest, start 4, end 4 and `CAG` are
 * answered { 0, 0, 1, 1, 3, 0, 6, 0 }: new, number 1. Then start 1, end 2 and `CAGC`, which make the same
 * sequence, are answered { 0, 0, 3, 1, 0, 0, 8, 0 }: known, number 1.
 */
fv_entered fv_entry(uint8_t *image, size_t image_len, const uint8_t *digest, size_t digest_len,
                    const uint8_t *reference, size_t reference_len, uint64_t start, uint64_t end,
                    const uint8_t *replacement, size_t replacement_len);

/*
 * Makes an active number inactive. Its status, the next journal entry and the journal count are written.
 *
 * Accepted: { 0, 0 }. Refused, in this order:
 *   10, value 0   the image is not well formed;
 *   16, value k   number is 0, or above k, how many are issued;
 *   17, value i   number, which is i, is not active;
 *   15, value J   all J journal entries are in use.
 *
 * With number 1 of fv_entry's example the answer is { 0, 0 }; asked again it is { 17, 1 }, and with number 2,
 * which is not issued, { 16, 1 }.
 */
fv_outcome fv_withdraw(uint8_t *image, size_t image_len, uint64_t number);

/* The answer of an undo. */
typedef struct {
    uint64_t refusal;
    uint64_t value;
    uint64_t number; /* the one whose change was taken back */
} fv_undone;

/*
 * Takes the latest change in the journal back: an active number becomes inactive, an inactive one active,
 * and the journal count is one less. These two numbers are written, and nothing is cleared: a number once
 * issued keeps its record and is never issued again. The next change uses the freed journal entry.
 *
 * Accepted: { 0, 0, number }. Refused, in this order:
 *   10, value 0   the image is not well formed;
 *   18, value 0   the journal count is 0.
 *
 * After fv_withdraw's example the first undo is answered { 0, 0, 1 } and makes number 1 active again; the
 * second, { 0, 0, 1 }, takes its entry back; the third is refused { 18, 0, 0 }.
 */
fv_undone fv_undo(uint8_t *image, size_t image_len);

/*
 * Makes all changes so far final: the journal count is written as 0, and no later undo takes them back.
 * With a journal count of 0 it is accepted as well, and changes no byte.
 *
 * Accepted: { 0, 0 }. Refused:
 *   10, value 0   the image is not well formed.
 *
 * After fv_entry's example the answer is { 0, 0 }. Number 1 stays active, and an undo is refused { 18, 0, 0 }.
 */
fv_outcome fv_seal(uint8_t *image, size_t image_len);

/*
 * Tests whether an image is well formed. Nothing is written. A program asks it before it keeps an image that
 * came from a file.
 *
 * Accepted: { 0, 0 }. Refused:
 *   10, value 0   the image is not well formed.
 *
 * After fv_entry's example the answer is { 0, 0 }. With an image_len of 142, one byte less than it needs, it is
 * { 10, 0 }.
 */
fv_outcome fv_check(const uint8_t *image, size_t image_len);

/* What the record of a number says. */
typedef struct {
    uint64_t refusal;
    uint64_t value;
    uint64_t start;
    uint64_t end;
    uint64_t status; /* an fv_status: 1 active, 0 inactive */
    uint64_t offset; /* of the normal replacement in the image, where its residues stand */
    uint64_t length; /* of the normal replacement */
} fv_record;

/*
 * Reads the record of a number, active or not: its normal form, with the normal replacement at image[offset]
 * to image[offset + length - 1]. Nothing is written. Number 0 is never issued, so that asking for it tells
 * how many numbers are.
 *
 * Accepted: { 0, 0, start, end, status, offset, length }. Refused, in this order:
 *   10, value 0   the image is not well formed;
 *   16, value k   number is 0, or above k, how many are issued.
 *
 * After fv_entry's example number 1 is answered { 0, 0, 1, 10, 1, 128, 12 }, and image[128] to image[139] hold
 * CAGCAGCAGCAG
 * Number 0 is refused { 16, 1, 0, 0, 0, 0, 0 }, and so is number 2.
 */
fv_record fv_read_record(const uint8_t *image, size_t image_len, uint64_t number);

/*
 * VCF: the alleles of one data line of a VCF file, on the reference that its CHROM names. The caller
 * finds that reference and lends it.
 *
 * A line is lent without its line end; a carriage return or a line feed that is left in it is a byte like
 * others. Tabs part its columns: CHROM, POS, ID, REF, ALT, and then any others or none, in which no byte
 * matters. CHROM and ID may hold anything or nothing, and a line that begins with # is read as others
 * are. Commas part ALT into places, counted from 1, with an alternate at each. An ALT of no bytes has one
 * place, and no alternate there.
 *
 * POS counts residues from 1. The allele of an alternate starts at position POS - 1, ends the length of
 * REF further on, and has the alternate for its replacement. Lower case in REF and ALT is read as upper
 * case, and what is written is upper case; the line stays as it is. The reference is not read so: a
 * lower-case letter there differs from every REF, and so does a stop or a gap, which are no letters in a line.
 *
 * From a line to a number: ask fv_vcf_count for the places, and fv_vcf_form for the form of each; then
 * lend its start, its end and the replacement that it wrote to fv_entry or fv_allele_identifier, as they
 * are. That is the allele of the line, since a normal form is its own normal form. How far it moved from the
 * line's interval fv_vcf_form says; those calls answer four zeros to it. This way ends where the normal
 * replacement has over 1,000,000 letters, which those calls refuse under 1: lend them the start, the end and
 * the alternate, in upper case, that the line itself gives.
 */

/* The answer of a count. */
typedef struct {
    uint64_t refusal;
    uint64_t value;
    uint64_t count;
} fv_counted;

/*
 * Counts the places of a line's ALT: one more than it has commas. What stands at them is not looked at.
 * Nothing is written.
 *
 * Accepted: { 0, 0, count }. Refused, in this order:
 *   1, value 0    the reference has over 1,000,000,000 bytes;
 *   19, value 0   the line has fewer than five columns; or REF is empty, or has a byte that is no letter,
 *                 A to Z or a to z; or POS is not a decimal from 1 to n, the length of the reference,
 *                 without sign or leading zero;
 *   20, value i   letter i of REF, from 0, is past the end of the reference or is not the one there, the
 *                 first such letter.
 *
 * With the reference `TCAGCAGCAGT` and a line whose columns are `chr1`, `4`, `.`, `G` and `GCAG,*,t`, the
 * answer is { 0, 0, 3 }. With the REF `GCAT` it is { 20, 3, 0 }, with the POS `12` it is { 19, 0, 0 }.
 */
fv_counted fv_vcf_count(const uint8_t *reference, size_t reference_len, const uint8_t *line, size_t line_len);

/*
 * Answers the normal form of the allele that the alternate at one place of a line's ALT makes, and writes
 * its replacement, as fv_normal_form does. The given interval, from which it moved, is the line's own. An
 * alternate that is REF again changes nothing, and is answered with kind 0.
 *
 * An alternate that is not all letters is refused, and the others of its line are answered: one that is
 * missing (`.` or `*`), symbolic (`<DEL>`), a breakend (`G[2:421681[`, `G.`), a gap (`-`) or empty.
 *
 * Accepted: { 0, 0, kind, start, end, length, left_widened, left_shrunk, right_widened, right_shrunk }.
 * Refused, in this order:
 *   1, value 0    as fv_vcf_count is;
 *   19, value 0   likewise;
 *   20, value i   likewise;
 *   21, value a   `alternate`, which is a, is 0 or above the count of the places; or what stands at that
 *                 place is not one or more letters, A to Z or a to z;
 *   1, value 1    the alternate has over 1,000,000 letters;
 *   6, value l    the normal replacement has l bytes, and `out` has fewer from `place` on, or `place` is
 *                 past its end.
 * A call with an `out` of 0 bytes and place 0 learns the length that is needed, as with fv_normal_form.
 *
 * With the line of fv_vcf_count's example, place 0 and room for 12 bytes, alternate 1 is answered
 * { 0, 0, 2, 1, 10, 12, 2, 0, 6, 0 }, and `out` then holds
 * CAGCAGCAGCAG
 * Alternate 2 is refused { 21, 2, 0, 0, 0, 0, 0, 0, 0, 0 }, alternate 4 { 21, 4, 0, 0, 0, 0, 0, 0, 0, 0 }.
 * Alternate 3 is answered { 0, 0, 1, 3, 4, 1, 0, 0, 0, 0 }, and `out` then holds
 * T
 */
fv_form fv_vcf_form(const uint8_t *reference, size_t reference_len, const uint8_t *line, size_t line_len,
                    uint64_t alternate, uint8_t *out, size_t out_len, uint64_t place);

#ifdef __cplusplus
}
#endif

#endif

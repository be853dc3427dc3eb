/*
 * The examples of include/fearnavult.h, each as it is worded there, and what its names stand for. Ends with status
 * 1 at the first that is not so.
 */
#include <stdint.h>
#include <stdio.h>
#include <stdlib.h>
#include <string.h>

#include "fearnavult.h"

#define TEXT(text) (const uint8_t *)(text), sizeof(text) - 1
#define REPEAT "TCAGCAGCAGT"
#define PROTEIN "MKTAYIAKQR*"
#define DIGEST "zR7HujP8jYfpROv-hBLZMHuR_5P4Zo0q"
#define LOCATION "{\"interval\":{\"end\":10,\"start\":1,\"type\":\"SimpleInterval\"}," \
                 "\"sequence_id\":\"" DIGEST "\",\"type\":\"SequenceLocation\"}"
#define ALLELE "{\"location\":\"NERH7ClkNiblyxw1x18NLM8Y7sEdWeN7\"," \
               "\"state\":{\"sequence\":\"CAGCAGCAGCAG\",\"type\":\"SequenceState\"},\"type\":\"Allele\"}"

static uint8_t out[200];
static int met;

static void expect(const char *call, int holds) {
    if (!holds) {
        printf("header: FAILED: %s is not answered as the header's example says\n", call);
        exit(1);
    }
    met++;
}

/* Whether a call was accepted and wrote this text and no byte behind it. */
static int wrote(fv_written w, const char *text) {
    size_t length = strlen(text);
    int is = w.refusal == 0 && w.value == 0 && w.length == length && memcmp(out, text, length) == 0 && out[length] == 0;
    memset(out, 0, sizeof out);
    return is;
}

static int answered(fv_outcome o, uint64_t refusal, uint64_t value) {
    return o.refusal == refusal && o.value == value;
}

static void names(void) {
    char version[40];
    snprintf(version, sizeof version, "%d.%d.%d", FV_VERSION_MAJOR, FV_VERSION_MINOR, FV_VERSION_PATCH);
    expect("FV_VERSION", strcmp(FV_VERSION, version) == 0);
    expect("FV_DIGEST_LENGTH", strlen(DIGEST) == FV_DIGEST_LENGTH);
    expect("FV_IDENTIFIER_LENGTH", fv_sequence_identifier(TEXT(""), out, 0, 0).value == FV_IDENTIFIER_LENGTH);
    expect("FV_LOCATION_IDENTIFIER_LENGTH", fv_location_identifier(11, 1, 10, TEXT(DIGEST), out, 0, 0).value
                                            == FV_LOCATION_IDENTIFIER_LENGTH);
}

static void sequences(void) {
    fv_running state = fv_running_begin(), kept;
    expect("fv_sequence_identifier", wrote(fv_sequence_identifier(TEXT("ACGT"), out, sizeof out, 0),
                                           "ga4gh:SQ.aKF498dAxcJAqme6QYQ7EZ07-fiw8Kw2"));
    expect("fv_running_begin", wrote(fv_running_finish(&state, out, sizeof out, 0),
                                     "ga4gh:SQ.z4PhNX7vuL3xVChQ1m2AB9Yg5AULVxXc"));
    expect("fv_running_feed", answered(fv_running_feed(&state, TEXT("AC")), 0, 0));
    kept = state;
    expect("fv_running_feed", answered(fv_running_feed(&state, TEXT("Gx")), 4, 1)
                              && memcmp(&state, &kept, sizeof state) == 0);
    expect("fv_running_feed", answered(fv_running_feed(&state, TEXT("GT")), 0, 0));
    expect("fv_running_finish", wrote(fv_running_finish(&state, out, sizeof out, 0),
                                      "ga4gh:SQ.aKF498dAxcJAqme6QYQ7EZ07-fiw8Kw2"));
}

/* Whether the answer is this form and this was written. */
static int form_is(fv_form f, fv_form wanted, const char *text) {
    int is = memcmp(&f, &wanted, sizeof f) == 0 && strcmp((const char *)out, text) == 0;
    memset(out, 0, sizeof out);
    return is;
}

static void forms(void) {
    expect("fv_normal_form", form_is(fv_normal_form(TEXT(REPEAT), 4, 4, TEXT("CAG"), out, 12, 0),
                                     (fv_form){0, 0, 2, 1, 10, 12, 3, 0, 6, 0}, "CAGCAGCAGCAG"));
    expect("fv_normal_form", form_is(fv_normal_form(TEXT(REPEAT), 1, 5, TEXT("CTGC"), out, 12, 0),
                                     (fv_form){0, 0, 1, 2, 3, 1, 0, 1, 0, 2}, "T"));
    expect("fv_normal_form", form_is(fv_normal_form(TEXT(PROTEIN), 3, 4, TEXT("*"), out, 12, 0),
                                     (fv_form){0, 0, 1, 3, 4, 1, 0, 0, 0, 0}, "*"));
    expect("fv_normal_form", form_is(fv_normal_form(TEXT(PROTEIN), 10, 10, TEXT("*"), out, 12, 0),
                                     (fv_form){0, 0, 2, 10, 11, 2, 0, 0, 1, 0}, "**"));
}

/* Slices that are only read may overlap: here the replacement is lent from the reference. */
static void overlapping(void) {
    const uint8_t *repeat = (const uint8_t *)REPEAT;
    expect("a slice that is only read", form_is(fv_normal_form(repeat, 11, 4, 4, repeat + 1, 3, out, 12, 0),
                                                (fv_form){0, 0, 2, 1, 10, 12, 3, 0, 6, 0}, "CAGCAGCAGCAG"));
}

static uint64_t location_refused(uint64_t reference_length) {
    return fv_location_text(reference_length, 0, 0, TEXT(DIGEST), out, 0, 0).refusal;
}

static uint64_t form_refused(const uint8_t *replacement, size_t length) {
    return fv_normal_form(TEXT(REPEAT), 0, 11, replacement, length, out, 0, 0).refusal;
}

/* Whether blank refuses these capacities in no room with this value: 0 where one is over its limit. */
static int blank_refused(uint64_t records, uint64_t journal, uint64_t pool, uint64_t value) {
    return answered(fv_blank(out, 0, 11, TEXT(DIGEST), records, journal, pool), FV_BAD_CAPACITY, value);
}

/* What is at a limit passes its test, and what is one above does not. */
static void limits(void) {
    static uint8_t replacement[FV_REPLACEMENT_LIMIT + 1];
    const uint64_t count = FV_COUNT_LIMIT, pool = FV_POOL_LIMIT;
    memset(replacement, 'A', sizeof replacement);
    expect("FV_REFERENCE_LIMIT", location_refused(FV_REFERENCE_LIMIT) == FV_NO_ROOM);
    expect("FV_REFERENCE_LIMIT", location_refused(FV_REFERENCE_LIMIT + 1) == FV_OVER_LIMIT);
    expect("FV_REPLACEMENT_LIMIT", form_refused(replacement, FV_REPLACEMENT_LIMIT) == FV_NO_ROOM);
    expect("FV_REPLACEMENT_LIMIT", form_refused(replacement, FV_REPLACEMENT_LIMIT + 1) == FV_OVER_LIMIT);
    expect("FV_IMAGE_SIZE", blank_refused(count, count, pool, FV_IMAGE_SIZE(count, count, pool)));
    expect("FV_COUNT_LIMIT", blank_refused(count + 1, count, pool, 0));
    expect("FV_COUNT_LIMIT", blank_refused(count, count + 1, pool, 0));
    expect("FV_POOL_LIMIT", blank_refused(count, count, pool + 1, 0));
}

static int identified(fv_identified i, const char *text) {
    return wrote((fv_written){i.refusal, i.value, i.length}, text) && i.left_widened == 3 && i.left_shrunk == 0
           && i.right_widened == 6 && i.right_shrunk == 0;
}

static void texts_written(void) {
    expect("fv_location_text", wrote(fv_location_text(11, 1, 10, TEXT(DIGEST), out, sizeof out, 0), LOCATION)
                               && strlen(LOCATION) == 132);
    expect("fv_location_identifier", wrote(fv_location_identifier(11, 1, 10, TEXT(DIGEST), out, sizeof out, 0),
                                           "ga4gh:VSL.NERH7ClkNiblyxw1x18NLM8Y7sEdWeN7"));
    expect("fv_allele_text", wrote(fv_allele_text(TEXT(REPEAT), 4, 4, TEXT("CAG"), TEXT(DIGEST), out, sizeof out, 0),
                                   ALLELE) && strlen(ALLELE) == 122);
    expect("fv_allele_identifier", identified(fv_allele_identifier(TEXT(REPEAT), 4, 4, TEXT("CAG"), TEXT(DIGEST),
                                                                   out, sizeof out, 0),
                                              "ga4gh:VA.AI9QWkPg6MybxSaPDP38hunMAsLzNpmS"));
}

static int location_is(fv_location l, uint64_t refusal, uint64_t value, uint64_t start, uint64_t end, uint64_t digest) {
    return l.refusal == refusal && l.value == value && l.start == start && l.end == end && l.digest == digest;
}

static int allele_is(fv_allele a, uint64_t refusal, uint64_t value, uint64_t location, uint64_t sequence, uint64_t length) {
    return a.refusal == refusal && a.value == value && a.location == location && a.sequence == sequence
           && a.length == length;
}

static void texts_read(void) {
    uint8_t other[122];
    memcpy(other, ALLELE, sizeof other);
    other[121] = ' ';
    expect("fv_read_location", location_is(fv_read_location(TEXT(LOCATION)), 0, 0, 1, 10, 72));
    expect("fv_read_location", location_is(fv_read_location(
        TEXT("{\"interval\":{\"end\":10,\"start\":11,\"type\":\"SimpleInterval\"},"
             "\"sequence_id\":\"" DIGEST "\",\"type\":\"SequenceLocation\"}")), 8, 31, 0, 0, 0));
    expect("fv_read_allele", allele_is(fv_read_allele(TEXT(ALLELE)), 0, 0, 13, 68, 12));
    expect("fv_read_allele", allele_is(fv_read_allele((const uint8_t *)ALLELE, 121), 8, 121, 0, 0, 0));
    expect("fv_read_allele", allele_is(fv_read_allele(other, sizeof other), 8, 121, 0, 0, 0));
}

#define ENTRY(image, start, end, replacement) \
    fv_entry(image, 143, TEXT(DIGEST), TEXT(REPEAT), start, end, TEXT(replacement))

static int entered(fv_entered e, fv_entered wanted) {
    return memcmp(&e, &wanted, sizeof e) == 0;
}

static int undone(uint8_t *image, uint64_t refusal, uint64_t value, uint64_t number) {
    fv_undone u = fv_undo(image, 143);
    return u.refusal == refusal && u.value == value && u.number == number;
}

static int record_is(const uint8_t *image, uint64_t number, fv_record wanted) {
    fv_record r = fv_read_record(image, 143, number);
    return memcmp(&r, &wanted, sizeof r) == 0;
}

static void registers(void) {
    const fv_entered known = {0, 0, 3, 1, 3, 0, 6, 0};
    uint8_t image[FV_IMAGE_SIZE(2, 3, 15)], sealed[143];
    expect("FV_IMAGE_SIZE", sizeof image == 143);
    expect("FV_IMAGE_SIZE", FV_IMAGE_SIZE(FV_COUNT_LIMIT, FV_COUNT_LIMIT, FV_POOL_LIMIT) == 10240076);
    expect("fv_blank", answered(fv_blank(image, 142, 11, TEXT(DIGEST), 2, 3, 15), 9, 143));
    expect("fv_blank", answered(fv_blank(image, 143, 11, TEXT(DIGEST), 2, 3, 15), 0, 0)
                       && image[24] == 116 && image[36] == 128);
    expect("fv_entry", entered(ENTRY(image, 4, 4, "CAG"), (fv_entered){0, 0, 1, 1, 3, 0, 6, 0}));
    expect("fv_entry", entered(ENTRY(image, 1, 2, "CAGC"), (fv_entered){0, 0, 3, 1, 0, 0, 8, 0}));
    memcpy(sealed, image, sizeof image);
    expect("fv_check", answered(fv_check(image, 143), 0, 0));
    expect("fv_check", answered(fv_check(image, 142), 10, 0));
    expect("fv_read_record", record_is(image, 1, (fv_record){0, 0, 1, 10, 1, 128, 12})
                             && memcmp(image + 128, "CAGCAGCAGCAG", 12) == 0);
    expect("fv_read_record", record_is(image, 0, (fv_record){16, 1, 0, 0, 0, 0, 0}));
    expect("fv_read_record", record_is(image, 2, (fv_record){16, 1, 0, 0, 0, 0, 0}));
    expect("fv_read_record", memcmp(image, sealed, sizeof image) == 0);
    expect("fv_withdraw", answered(fv_withdraw(image, 143, 1), 0, 0));
    expect("fv_withdraw", answered(fv_withdraw(image, 143, 1), 17, 1));
    expect("fv_withdraw", answered(fv_withdraw(image, 143, 2), 16, 1));
    expect("fv_undo", undone(image, 0, 0, 1) && entered(ENTRY(image, 4, 4, "CAG"), known));
    expect("fv_undo", undone(image, 0, 0, 1));
    expect("fv_undo", undone(image, 18, 0, 0));
    expect("fv_seal", answered(fv_seal(sealed, 143), 0, 0));
    expect("fv_seal", undone(sealed, 18, 0, 0) && entered(ENTRY(sealed, 4, 4, "CAG"), known));
}

#define LINE(pos, ref) TEXT("chr1\t" pos "\t.\t" ref "\tGCAG,*,t")

static int counted(fv_counted c, uint64_t refusal, uint64_t value, uint64_t count) {
    return c.refusal == refusal && c.value == value && c.count == count;
}

/* Whether the answer to an alternate of the line is this form, or a refusal of this value, and this was written. */
static int formed(uint64_t alternate, fv_form wanted, const char *text) {
    return form_is(fv_vcf_form(TEXT(REPEAT), LINE("4", "G"), alternate, out, 12, 0), wanted, text);
}

static void vcf_lines(void) {
    expect("fv_vcf_count", counted(fv_vcf_count(TEXT(REPEAT), LINE("4", "G")), 0, 0, 3));
    expect("fv_vcf_count", counted(fv_vcf_count(TEXT(REPEAT), LINE("4", "GCAT")), 20, 3, 0));
    expect("fv_vcf_count", counted(fv_vcf_count(TEXT(REPEAT), LINE("12", "G")), 19, 0, 0));
    expect("fv_vcf_form", formed(1, (fv_form){0, 0, 2, 1, 10, 12, 2, 0, 6, 0}, "CAGCAGCAGCAG"));
    expect("fv_vcf_form", formed(2, (fv_form){21, 2, 0, 0, 0, 0, 0, 0, 0, 0}, ""));
    expect("fv_vcf_form", formed(4, (fv_form){21, 4, 0, 0, 0, 0, 0, 0, 0, 0}, ""));
    expect("fv_vcf_form", formed(3, (fv_form){0, 0, 1, 3, 4, 1, 0, 0, 0, 0}, "T"));
}

int main(void) {
    names();
    sequences();
    forms();
    overlapping();
    limits();
    texts_written();
    texts_read();
    registers();
    vcf_lines();
    printf("header: %d examples are answered as it says\n", met);
    return 0;
}

/*
 * From VCF lines to numbers: each alternate of each line is brought to its normal form, and that is entered
 * into a register. Three lines put CAG into a repeat of CAG, each in its own way: it is one molecule, so it
 * has one number.
 *
 *     ./install PREFIX
 *     cc -IPREFIX/include -o vcf examples/vcf.c PREFIX/lib/libfearnavult.a
 */
#include <inttypes.h>
#include <stdio.h>
#include <string.h>

#include "fearnavult.h"

/* Room for 5 records, 10 journal entries and 100 residues. */
enum { RECORDS = 5, JOURNAL = 10, POOL = 100, IMAGE = FV_IMAGE_SIZE(RECORDS, JOURNAL, POOL) };

/* A form that would need more is refused under 6, which says how much. */
enum { ROOM = 50 };

static const char reference[] = "TCAGCAGCAGT";
enum { REFERENCE = sizeof reference - 1 };

/* CHROM, POS, ID, REF, ALT, and what else a caller prints, which is passed over. */
static const char *const lines[] = {
    "chr1\t4\t.\tG\tGCAG,T\t50\tPASS\tDP=31\tGT\t1/2",
    "chr1\t1\t.\tt\ttcag\t48\tPASS\tDP=28\tGT\t0/1",
    "chr1\t10\t.\tGT\tGCAGT,<DEL>,*\t50\tPASS\tDP=30\tGT\t1/3",
    "chr1\t1\t.\tTCAG\tT,tcag\t44\tPASS\tDP=19\tGT\t1/2",
    "chr1\t4\t.\tG\t.\t.\tPASS\tDP=33\tGT\t0/0",
    "chr1\t5\t.\tA\tG\t12\tq20\tDP=7\tGT\t0/1",
};

static uint8_t image[IMAGE], identifier[FV_IDENTIFIER_LENGTH];
static const uint8_t *const digest = identifier + FV_IDENTIFIER_LENGTH - FV_DIGEST_LENGTH;

static const uint8_t *bytes(const char *text) {
    return (const uint8_t *)text;
}

/* Says whether a call was refused. */
static int refused(uint64_t refusal, uint64_t value) {
    if (refusal != FV_ACCEPTED)
        printf("refused %" PRIu64 ", %" PRIu64 "\n", refusal, value);
    return refusal != FV_ACCEPTED;
}

/* How far the interval moved from the line's own. A side that stayed where it was is passed over. */
static void tell_side(const char *side, uint64_t widened, uint64_t shrunk) {
    if (widened > 0)
        printf(", %s widened by %" PRIu64, side, widened);
    if (shrunk > 0)
        printf(", %s shrunk by %" PRIu64, side, shrunk);
}

static const char *answer(uint64_t answer) {
    switch (answer) {
    case FV_NEW: return "new";
    case FV_AGAIN: return "again";
    default: return "known";
    }
}

/* A normal form is its own normal form, so it is entered as it is. */
static void enter(const fv_form *form, const uint8_t *replacement) {
    fv_entered e = fv_entry(image, IMAGE, digest, FV_DIGEST_LENGTH, bytes(reference), REFERENCE, form->start, form->end,
                            replacement, form->length);
    if (refused(e.refusal, e.value))
        return;
    printf("%s, number %" PRIu64 ", %" PRIu64 " to %" PRIu64 ", %.*s", answer(e.answer), e.number,
           form->start, form->end, (int)form->length, (const char *)replacement);
    tell_side("left", form->left_widened, form->left_shrunk);
    tell_side("right", form->right_widened, form->right_shrunk);
    printf("\n");
}

static void take_alternate(const char *line, uint64_t alternate) {
    uint8_t replacement[ROOM];
    printf("  %" PRIu64 ": ", alternate);
    fv_form form = fv_vcf_form(bytes(reference), REFERENCE, bytes(line), strlen(line), alternate, replacement, ROOM, 0);
    if (!refused(form.refusal, form.value))
        enter(&form, replacement);
}

static void take_line(const char *line) {
    printf("%s\n", line);
    fv_counted c = fv_vcf_count(bytes(reference), REFERENCE, bytes(line), strlen(line));
    if (c.refusal != FV_ACCEPTED)
        printf("  refused %" PRIu64 ", %" PRIu64 "\n", c.refusal, c.value);
    for (uint64_t alternate = 1; alternate <= c.count; alternate++)
        take_alternate(line, alternate);
}

int main(void) {
    fv_written w = fv_sequence_identifier(bytes(reference), REFERENCE, identifier, sizeof identifier, 0);
    if (refused(w.refusal, w.value))
        return 1;
    fv_outcome o = fv_blank(image, IMAGE, REFERENCE, digest, FV_DIGEST_LENGTH, RECORDS, JOURNAL, POOL);
    if (refused(o.refusal, o.value))
        return 1;
    for (size_t i = 0; i < sizeof lines / sizeof *lines; i++)
        take_line(lines[i]);
    return 0;
}

/*
 * A register from blank to seal. CAG comes into a repeat of CAG, written down in three ways: it is one
 * molecule, so it has one number and one identifier. How far its interval moved is told of each. At the end
 * the records are read back.
 *
 *     ./install PREFIX
 *     cc -IPREFIX/include -o register examples/register.c PREFIX/lib/libfearnavult.a
 */
#include <inttypes.h>
#include <stdio.h>
#include <string.h>

#include "fearnavult.h"

/* Room for 2 records, 3 journal entries and 15 residues. */
enum { RECORDS = 2, JOURNAL = 3, POOL = 15, IMAGE = FV_IMAGE_SIZE(RECORDS, JOURNAL, POOL) };

static const char reference[] = "TCAGCAGCAGT";
enum { REFERENCE = sizeof reference - 1 };

static uint8_t image[IMAGE], identifier[FV_IDENTIFIER_LENGTH];
static const uint8_t *const digest = identifier + FV_IDENTIFIER_LENGTH - FV_DIGEST_LENGTH;

static const uint8_t *bytes(const char *text) {
    return (const uint8_t *)text;
}

/* Says whether a call was refused. */
static int refused(const char *call, uint64_t refusal, uint64_t value) {
    printf("%s: ", call);
    if (refusal != FV_ACCEPTED)
        printf("refused %" PRIu64 ", %" PRIu64 "\n", refusal, value);
    return refusal != FV_ACCEPTED;
}

static void tell(const char *call, fv_outcome o) {
    if (!refused(call, o.refusal, o.value))
        printf("done\n");
}

/* A long reference comes in parts; this one needn't. A part that is refused ends it. */
static fv_outcome identify_reference(void) {
    static const size_t cuts[] = {0, 5, REFERENCE};
    fv_running state = fv_running_begin();
    for (int i = 0; i < 2; i++) {
        fv_outcome o = fv_running_feed(&state, bytes(reference + cuts[i]), cuts[i + 1] - cuts[i]);
        if (o.refusal != FV_ACCEPTED)
            return o;
    }
    fv_written w = fv_running_finish(&state, identifier, sizeof identifier, 0);
    return (fv_outcome){w.refusal, w.value};
}

static const char *answer(uint64_t answer) {
    switch (answer) {
    case FV_NEW: return "new";
    case FV_AGAIN: return "again";
    default: return "known";
    }
}

/* A side that stayed where it was is passed over. */
static void tell_side(const char *side, uint64_t widened, uint64_t shrunk) {
    if (widened > 0)
        printf(", %s widened by %" PRIu64, side, widened);
    if (shrunk > 0)
        printf(", %s shrunk by %" PRIu64, side, shrunk);
}

static void enter(uint64_t start, uint64_t end, const char *replacement) {
    uint8_t allele[FV_IDENTIFIER_LENGTH];
    printf("%" PRIu64 " %" PRIu64 " %s, ", start, end, replacement);
    fv_entered e = fv_entry(image, IMAGE, digest, FV_DIGEST_LENGTH, bytes(reference), REFERENCE, start, end,
                            bytes(replacement), strlen(replacement));
    if (refused("enter", e.refusal, e.value))
        return;
    printf("%s, number %" PRIu64, answer(e.answer), e.number);
    tell_side("left", e.left_widened, e.left_shrunk);
    tell_side("right", e.right_widened, e.right_shrunk);
    printf("\n");
    fv_identified i = fv_allele_identifier(bytes(reference), REFERENCE, start, end, bytes(replacement),
                                           strlen(replacement), digest, FV_DIGEST_LENGTH, allele, sizeof allele, 0);
    if (!refused("  identify", i.refusal, i.value))
        printf("%.*s\n", (int)i.length, (const char *)allele);
}

static void undo(void) {
    fv_undone u = fv_undo(image, IMAGE);
    if (!refused("undo", u.refusal, u.value))
        printf("number %" PRIu64 "\n", u.number);
}

/* Number 0 is refused with how many are issued, or since the image is not well formed. */
static void read_records(void) {
    fv_record none = fv_read_record(image, IMAGE, 0);
    if (none.refusal != FV_NO_SUCH_NUMBER) {
        refused("read", none.refusal, none.value);
        return;
    }
    for (uint64_t number = 1; number <= none.value; number++) {
        fv_record r = fv_read_record(image, IMAGE, number);
        printf("number %" PRIu64 ", ", number);
        if (!refused("read", r.refusal, r.value))
            printf("%s, %" PRIu64 " to %" PRIu64 ", %.*s\n", r.status == FV_ACTIVE ? "active" : "inactive",
                   r.start, r.end, (int)r.length, (const char *)image + r.offset);
    }
}

int main(void) {
    fv_outcome o = identify_reference();
    if (refused(reference, o.refusal, o.value))
        return 1;
    printf("%.*s\n", (int)sizeof identifier, (const char *)identifier);

    tell("blank", fv_blank(image, IMAGE, REFERENCE, digest, FV_DIGEST_LENGTH, RECORDS, JOURNAL, POOL));
    enter(4, 4, "CAG");
    enter(1, 2, "CAGC");
    enter(0, 4, "TCAGCAG");
    enter(1, 4, "CAG");
    enter(2, 3, "T");
    tell("withdraw 1", fv_withdraw(image, IMAGE, 1));
    undo();
    tell("withdraw 2", fv_withdraw(image, IMAGE, 2));
    tell("seal", fv_seal(image, IMAGE));
    undo();
    tell("check", fv_check(image, IMAGE));
    read_records();
    return 0;
}

/*
 * Times this library and an earlier one in one run: calls that test residues, from a residue to megabytes of them.
 * The earlier one's names begin with `before_`, as bench/versions has it.
 */
#include "fearnavult.h"
#include "tables.h"

/* Of the C library, whose headers are not everywhere. */
void *memcpy(void *to, const void *from, size_t count);

#define BOTH(call) extern __typeof__(call) before_##call
BOTH(fv_check);
BOTH(fv_normal_form);
BOTH(fv_read_allele);
BOTH(fv_sequence_identifier);

typedef struct {
    __typeof__(fv_check) *check;
    __typeof__(fv_normal_form) *normal_form;
    __typeof__(fv_read_allele) *read_allele;
    __typeof__(fv_sequence_identifier) *sequence_identifier;
} version;
static const version before = {before_fv_check, before_fv_normal_form, before_fv_read_allele,
                               before_fv_sequence_identifier};
static const version now = {fv_check, fv_normal_form, fv_read_allele, fv_sequence_identifier};

enum { MANY = 1000 * 1000, HALF = 32 << 20, NUMBERS = 10, EACH = FV_REPLACEMENT_LIMIT, POOL = NUMBERS * EACH };
static const char head_of_text[] = "{\"location\":\"zR7HujP8jYfpROv-hBLZMHuR_5P4Zo0q\",\"state\":{\"sequence\":\"";
static const char tail_of_text[] = "\",\"type\":\"SequenceState\"},\"type\":\"Allele\"}";
enum { HEAD = sizeof head_of_text - 1, TAIL = sizeof tail_of_text - 1 };
static uint8_t twice[2 * HALF]; /* the same random residues two times */
static uint8_t image[FV_IMAGE_SIZE(NUMBERS, NUMBERS, POOL)], text[HEAD + POOL + TAIL], out[64];
static const uint8_t repeat[] = "TCAGCAGCAGT";

static void form(const version *v, uint64_t start, uint64_t end, const uint8_t *replacement, size_t length, size_t room,
                 uint64_t refusal) {
    hold(v->normal_form(repeat, 11, start, end, replacement, length, out, room, 0).refusal == refusal);
}
static void substitution(const version *v) {
    for (int i = 0; i < MANY; i++) form(v, 2, 3, repeat, 1, sizeof out, 0);
}
static void insertion(const version *v) {
    for (int i = 0; i < MANY; i++) form(v, 4, 4, repeat + 1, 3, sizeof out, 0);
}
static void replacement_of_300(const version *v) {
    for (int i = 0; i < MANY; i++) form(v, 2, 3, twice, 300, 0, 6);
}
static void longest_replacement(const version *v) {
    for (int i = 0; i < 200; i++) form(v, 2, 3, twice, FV_REPLACEMENT_LIMIT, 0, 6);
}
static void roll(const version *v) {
    hold(v->normal_form(twice, sizeof twice, 0, HALF, out, 0, out + 1, 0, 0).refusal == 6);
}
static void identifier(const version *v) {
    hold(v->sequence_identifier(twice, HALF, out, FV_IDENTIFIER_LENGTH, 0).refusal == 0);
}
static void read(const version *v) {
    for (int i = 0; i < 40; i++) hold(v->read_allele(text, sizeof text).length == POOL);
}
static void check(const version *v) {
    for (int i = 0; i < 40; i++) hold(v->check(image, sizeof image).refusal == 0);
}

/* Insertions as long as they may be, one after another, which fill the pool. */
static void enter_all(void) {
    const uint8_t *digest = (const uint8_t *)head_of_text + 13;
    hold(fv_blank(image, sizeof image, NUMBERS, digest, 32, NUMBERS, NUMBERS, POOL).refusal == 0);
    for (uint64_t i = 0; i < NUMBERS; i++)
        hold(fv_entry(image, sizeof image, digest, 32, (const uint8_t *)"XXXXXXXXXX", NUMBERS, i, i, twice + i * EACH,
                      EACH).answer == FV_NEW);
}

/* The best of four times the usual turns, since the two are to differ by little. */
static void compare(const char *what, row earlier, row ours) {
    row best[] = {earlier, ours};
    measure(best, COUNT(best));
    for (int times = 1; times < 4; times++) {
        row again[] = {earlier, ours};
        measure(again, COUNT(again));
        for (int i = 0; i < COUNT(best); i++)
            if (again[i].best < best[i].best) best[i] = again[i];
    }
    line(what, &best[1], &best[0]);
}

#define LINE(what, calls) \
    static void calls##_before(void) { calls(&before); } \
    static void calls##_now(void) { calls(&now); } \
    static void calls##_line(void) { \
        compare(what, (row){"the earlier library", calls##_before, 0}, (row){"this one", calls##_now, 0}); \
    }
LINE("a million substitutions of one residue", substitution)
LINE("a million insertions into a repeat", insertion)
LINE("a million replacements of 300 residues", replacement_of_300)
LINE("200 replacements of 1,000,000 residues", longest_replacement)
LINE("roll to the right over 32 MB, and residues", roll)
LINE("identifier of 32 MB", identifier)
LINE("40 texts of 10 MB read", read)
LINE("40 checks of 10 numbers, 10 MB of residues", check)

int main(void) {
    fill(twice, HALF);
    memcpy(twice + HALF, twice, HALF);
    memcpy(text, head_of_text, HEAD), memcpy(text + HEAD, twice, POOL), memcpy(text + HEAD + POOL, tail_of_text, TAIL);
    enter_all();
    head();
    substitution_line(), insertion_line(), replacement_of_300_line(), longest_replacement_line();
    roll_line(), identifier_line(), read_line(), check_line();
    return 0;
}

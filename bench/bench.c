/*
 * Times ours and the plain C in one run, and prints one table of ratios.
 *
 * The two arguments are what bench/run has measured, 0 for what it has not: the bytes a second of
 * OpenSSL's SHA-512, and the allele identifiers a second of the second program.
 */
#include "fearnavult.h"
#include "plain.h"
#include "register.h"
#include "tables.h"
#include "vcf.h"

/* Of the C library, whose headers are not everywhere. */
int printf(const char *format, ...);
double atof(const char *text);
void *memcpy(void *to, const void *from, size_t count);
void *memset(void *at, int byte, size_t count);
int memcmp(const void *one, const void *other, size_t count);

enum { MEGABYTES = 64, BYTES = MEGABYTES << 20 };
enum { SHORT = 10 * 1000, LONG = 10 * 1000 * 1000, FORMS = 100 * 1000 };
enum { LONGEST_ROLL = 100 * 1000, ROLLED = 20 * 1000 * 1000 };
enum { ROUNDS = 10 * 1000, IDENTIFIERS = 3 * ROUNDS };

static uint8_t twice[2 * BYTES]; /* the same random residues two times */
static uint8_t short_reference[SHORT], long_reference[LONG], same[LONG];
static uint8_t out[LONGEST_ROLL], digest[64];
static const uint8_t nothing[1];
static const uint8_t repeat[] = "TCAGCAGCAGT", repeat_digest[] = "zR7HujP8jYfpROv-hBLZMHuR_5P4Zo0q";
static size_t found;

/* The identifier of 64 MB, whole and in parts, and its two halves in plain C. */
static void identifier(void) { hold(fv_sequence_identifier(twice, BYTES, out, 41, 0).length == 41); }
static void in_parts_of(size_t length) {
    fv_running state = fv_running_begin();
    for (size_t at = 0; at < BYTES; at += length) {
        size_t left = BYTES - at;
        hold(fv_running_feed(&state, twice + at, left < length ? left : length).refusal == 0);
    }
    hold(fv_running_finish(&state, out, 41, 0).length == 41);
}
static void in_long_parts(void) { in_parts_of(1000 * 1000); }
static void in_short_parts(void) { in_parts_of(1000); }
static void plain_digest(void) { plain_sha512(twice, BYTES, digest); }
static void plain_test(void) { hold(plain_residues(twice, BYTES) == BYTES); }
static void plain_digest_and_test(void) { plain_digest(), plain_test(); }

/*
 * One of two equal halves of 64 MB goes, so that the change rolls over the whole other one: to the
 * right, which is a common prefix of the two, or to the left, a common suffix. Where the half begins
 * with a foreign byte, refusal 5 ends the call there, and the roll is all that it has done. Where it
 * does not, all of it is tested, and refusal 6 ends the call before anything is written.
 */
static void first_half_goes(uint8_t first, uint64_t refusal) {
    twice[0] = twice[BYTES] = first;
    hold(fv_normal_form(twice, sizeof twice, 0, BYTES, nothing, 0, out, 0, 0).refusal == refusal);
}
static void second_half_goes(uint8_t first, uint64_t refusal) {
    twice[0] = twice[BYTES] = first;
    hold(fv_normal_form(twice, sizeof twice, BYTES, sizeof twice, nothing, 0, out, 0, 0).refusal == refusal);
}
static void roll_right(void) { first_half_goes('a', 5); }
static void roll_left(void) { second_half_goes('a', 5); }
static void roll_right_and_test(void) { first_half_goes('A', 6); }
static void roll_left_and_test(void) { second_half_goes('A', 6); }
static void plain_prefix(void) { found = plain_common_prefix(twice, twice + BYTES, BYTES); }
static void compare_memory(void) { hold(memcmp(twice, twice + BYTES, BYTES) == 0); }
static void plain_suffix(void) { found = plain_common_suffix(twice, twice + BYTES, BYTES); }
static void plain_prefix_and_test(void) { plain_prefix(), plain_test(); }
static void plain_suffix_and_test(void) { plain_suffix(), plain_test(); }

/* The same insertion into the same repeat, in the middle of a short and of a long reference. */
static void forms(const uint8_t *reference, size_t length) {
    const uint8_t *unit = reference + length / 2;
    uint64_t spot = length / 2 + 3;
    for (int i = 0; i < FORMS; i++)
        hold(fv_normal_form(reference, length, spot, spot, unit, 3, out, sizeof out, 0).length == 12);
}
static void forms_on_short(void) { forms(short_reference, SHORT); }
static void forms_on_long(void) { forms(long_reference, LONG); }

/* One residue goes from the middle of a run, and the change rolls over all others: as many in each
   row, in more or fewer calls. */
static void rolls(size_t length) {
    uint64_t spot = length / 2;
    for (size_t i = 0; i < ROLLED / length; i++)
        hold(fv_normal_form(same, length + 1, spot, spot + 1, nothing, 0, out, sizeof out, 0).length == length);
}
static void rolls_of_1000(void) { rolls(1000); }
static void rolls_of_10000(void) { rolls(10000); }
static void rolls_of_100000(void) { rolls(100000); }

/* An insertion, a substitution and an allele that changes nothing, as in bench/second.py. */
static void repeat_identifier(uint64_t start, uint64_t end, const char *replacement, size_t length) {
    hold(fv_allele_identifier(repeat, 11, start, end, (const uint8_t *)replacement, length,
                              repeat_digest, 32, out, 41, 0).length == 41);
}
static void allele_identifiers(void) {
    for (int i = 0; i < ROUNDS; i++) {
        repeat_identifier(4, 4, "CAG", 3);
        repeat_identifier(2, 3, "T", 1);
        repeat_identifier(1, 4, "CAG", 3);
    }
}

/* One residue comes into the middle of 10 million equal ones, and all of them into the replacement. */
static void long_allele_identifier(void) {
    const uint8_t one[] = {'A'};
    hold(fv_allele_identifier(same, LONG, LONG / 2, LONG / 2, one, 1, repeat_digest, 32, out, 41, 0).length == 41);
}
static void plain_long_digest(void) { plain_sha512(same, LONG, digest); }
static void plain_long_roll(void) {
    found = plain_common_suffix(same, same + 1, LONG / 2) + plain_common_prefix(same, same + 1, LONG / 2);
}
static void plain_long_test(void) { hold(plain_residues(same, LONG) == LONG); }
static void plain_long_all(void) { plain_long_digest(), plain_long_roll(), plain_long_test(); }

static void sequence_lines(double openssl) {
    row whole[] = {{"`fv_sequence_identifier`", identifier, 0},
                   {"plain C SHA-512", plain_digest, 0},
                   {"plain C residue test", plain_test, 0},
                   {"plain C SHA-512 and residue test", plain_digest_and_test, 0}};
    ours_first("identifier of 64 MB", whole, COUNT(whole));
    row other = {"OpenSSL SHA-512", 0, openssl > 0 ? BYTES / openssl * 1e9 : 0};
    if (openssl > 0) line("identifier of 64 MB", &whole[0], &other);
    row parts[] = {{"`fv_sequence_identifier`", identifier, 0},
                   {"`fv_running_feed`, parts of 1,000,000", in_long_parts, 0},
                   {"`fv_running_feed`, parts of 1,000", in_short_parts, 0}};
    ours_last("identifier of 64 MB", parts, COUNT(parts));
}

static void roll_lines(void) {
    row right[] = {{"`fv_normal_form`, refused under 5", roll_right, 0},
                   {"plain C common prefix", plain_prefix, 0},
                   {"`memcmp`", compare_memory, 0}};
    ours_first("roll to the right over 64 MB", right, COUNT(right));
    row left[] = {{"`fv_normal_form`, refused under 5", roll_left, 0}, {"plain C common suffix", plain_suffix, 0}};
    ours_first("roll to the left over 64 MB", left, COUNT(left));
    row right_and_test[] = {{"`fv_normal_form`, refused under 6", roll_right_and_test, 0},
                            {"plain C common prefix and residue test", plain_prefix_and_test, 0}};
    ours_first("roll to the right over 64 MB, and residues", right_and_test, COUNT(right_and_test));
    row left_and_test[] = {{"`fv_normal_form`, refused under 6", roll_left_and_test, 0},
                           {"plain C common suffix and residue test", plain_suffix_and_test, 0}};
    ours_first("roll to the left over 64 MB, and residues", left_and_test, COUNT(left_and_test));
}

static void form_lines(void) {
    row references[] = {{"on a reference of 10 thousand", forms_on_short, 0},
                        {"on a reference of 10 million", forms_on_long, 0}};
    ours_last("100 thousand normal forms", references, COUNT(references));
    row lengths[] = {{"of 1,000 residues each", rolls_of_1000, 0},
                     {"of 10,000 residues each", rolls_of_10000, 0},
                     {"of 100,000 residues each", rolls_of_100000, 0}};
    ours_last("rolls over 20 million residues in all", lengths, COUNT(lengths));
}

static void allele_lines(double second) {
    row alleles[] = {{"`fv_allele_identifier`", allele_identifiers, 0}};
    measure(alleles, COUNT(alleles));
    row other = {"the second program", 0, second > 0 ? IDENTIFIERS / second * 1e9 : 0};
    if (second > 0) line("30 thousand allele identifiers", &alleles[0], &other);
    row long_allele[] = {{"`fv_allele_identifier`", long_allele_identifier, 0},
                         {"plain C SHA-512", plain_long_digest, 0},
                         {"plain C roll to both sides", plain_long_roll, 0},
                         {"plain C residue test", plain_long_test, 0},
                         {"plain C SHA-512, roll and residue test", plain_long_all, 0}};
    ours_first("an allele of 10 million residues", long_allele, COUNT(long_allele));
}

int main(int count, char **words) {
    double openssl = count > 1 ? atof(words[1]) : 0, second = count > 2 ? atof(words[2]) : 0;
    fill(twice, BYTES);
    memcpy(twice + BYTES, twice, BYTES);
    fill(short_reference, SHORT);
    memcpy(short_reference + SHORT / 2 - 1, "TCAGCAGCAGT", 11);
    fill(long_reference, LONG);
    memcpy(long_reference + (LONG - SHORT) / 2, short_reference, SHORT);
    memset(same, 'A', sizeof same);

    head();
    sequence_lines(openssl);
    roll_lines();
    form_lines();
    allele_lines(second);
    register_lines();
    vcf_lines();
    return 0;
}

/*
 * Forms from VCF lines, whose alternate is a substitution, an insertion or a deletion: against the normal form alone
 * of the same alleles, against one search for all tabs of the same bytes, and lines with samples against the same
 * without.
 */
#include "vcf.h"

#include "fearnavult.h"
#include "tables.h"

/* Of the C library, whose headers are not everywhere. */
int snprintf(char *to, size_t room, const char *format, ...);
void *memchr(const void *at, int byte, size_t count);
void *memcpy(void *to, const void *from, size_t count);

enum { LINES = 10 * 1000, ROUNDS = 10, SAMPLES = 20, LONGEST = 1000, RESIDUES = 100 * 1000, ROOM = 200 };

typedef struct {
    uint8_t text[LONGEST];
    size_t length, front; /* of all of it, and of its first five columns */
    uint64_t start, end;
    uint8_t replacement[4];
    size_t replacement_length;
} given;

static given all[LINES];
static uint8_t reference[RESIDUES], out[ROOM];
static volatile size_t seen;

/* A residue for a residue, three that come in, or three that go, each behind the residue before it. */
static void choose(given *l, int i) {
    size_t gone = i % 3 == 2 ? 4 : 1;
    l->start = (uint64_t)i * 7919 % (RESIDUES - gone);
    l->end = l->start + gone;
    l->replacement_length = i % 3 == 1 ? 4 : 1;
    memcpy(l->replacement, "XCAG", sizeof l->replacement);
    if (i % 3 != 0)
        l->replacement[0] = reference[l->start];
}

static void write_line(given *l) {
    int at = snprintf((char *)l->text, LONGEST, "chr1\t%d\t.\t%.*s\t%.*s", (int)l->start + 1, (int)(l->end - l->start),
                      (const char *)reference + l->start, (int)l->replacement_length, (const char *)l->replacement);
    l->front = (size_t)at;
    at += snprintf((char *)l->text + at, LONGEST - (size_t)at, "\t213.7\tPASS\tDP=600;AF=0.5;MQ=60\tGT:AD:DP:GQ:PL");
    for (int i = 0; i < SAMPLES; i++)
        at += snprintf((char *)l->text + at, LONGEST - (size_t)at, "\t0/1:15,15:30:99:400,0,400");
    hold(at < LONGEST);
    l->length = (size_t)at;
}

static fv_form form_of_line(const given *l, size_t length) {
    return fv_vcf_form(reference, RESIDUES, l->text, length, 1, out, ROOM, 0);
}
static fv_form form_of_allele(const given *l) {
    return fv_normal_form(reference, RESIDUES, l->start, l->end, l->replacement, l->replacement_length, out, ROOM, 0);
}
static size_t tabs(const given *l) {
    size_t count = 0;
    const uint8_t *end = l->text + l->length;
    for (const uint8_t *at = l->text; (at = memchr(at, '\t', (size_t)(end - at))) != 0; at++) count++;
    return count;
}

static void forms_of_lines(void) {
    for (int i = 0; i < ROUNDS * LINES; i++)
        hold(form_of_line(&all[i % LINES], all[i % LINES].length).refusal == 0);
}
static void forms_of_fronts(void) {
    for (int i = 0; i < ROUNDS * LINES; i++)
        hold(form_of_line(&all[i % LINES], all[i % LINES].front).refusal == 0);
}
static void counts(void) {
    for (int i = 0; i < ROUNDS * LINES; i++)
        hold(fv_vcf_count(reference, RESIDUES, all[i % LINES].text, all[i % LINES].length).count == 1);
}
static void forms_of_alleles(void) {
    for (int i = 0; i < ROUNDS * LINES; i++) hold(form_of_allele(&all[i % LINES]).refusal == 0);
}
static void find_tabs(void) {
    for (int i = 0; i < ROUNDS * LINES; i++) seen = tabs(&all[i % LINES]);
}

static void lay_lines(void) {
    fill(reference, RESIDUES);
    for (int i = 0; i < LINES; i++) {
        choose(&all[i], i);
        write_line(&all[i]);
        fv_form line = form_of_line(&all[i], all[i].length), allele = form_of_allele(&all[i]);
        hold(line.refusal == 0 && line.kind != 0 && line.start == allele.start && line.end == allele.end);
    }
}

void vcf_lines(void) {
    lay_lines();
    row forms[] = {{"`fv_vcf_form`", forms_of_lines, 0},
                   {"`fv_normal_form` of the same alleles", forms_of_alleles, 0},
                   {"`memchr` for each tab", find_tabs, 0},
                   {"`fv_vcf_form`, no columns behind ALT", forms_of_fronts, 0}};
    ours_first("100 thousand VCF lines of 20 samples", forms, COUNT(forms));
    row places[] = {{"`fv_vcf_count`", counts, 0}, {"`memchr` for each tab", find_tabs, 0}};
    ours_first("100 thousand VCF lines of 20 samples", places, COUNT(places));
}

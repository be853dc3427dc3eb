/*
 * What the program's `form --vcf --tsv` is measured against, on the same two files:
 *   files columns REF.fa CALLS.vcf   reads both, cuts each line at its tabs and writes a row for each alternate, as the
 *                                    program does, with the line's own interval in the place of the normal one;
 *   files forms REF.fa CALLS.vcf     reads both, then makes the library's calls on every line in memory, and prints the
 *                                    nanoseconds of the best turn.
 */
#include "fearnavult.h"
#include "tables.h"

/* Of the C library, whose headers are not everywhere. */
int open(const char *name, int how, ...);
long read(int file, void *to, size_t count);
long write(int file, const void *from, size_t count);
int printf(const char *format, ...);
int snprintf(char *to, size_t room, const char *format, ...);
int strcmp(const char *one, const char *other);
unsigned long strtoul(const char *text, char **end, int base);
void *memchr(const void *at, int byte, size_t count);
void *memcpy(void *to, const void *from, size_t count);

enum { ROOM = 1 << 26, PIECE = 1 << 16, LONGEST = 1 << 12 };
enum { CHROM, POS, ID, REF, ALT, COLUMNS };

typedef struct {
    const uint8_t *at;
    size_t length;
} text;

static uint8_t fasta[ROOM], calls[ROOM], normal[PIECE], written[PIECE];
static text reference, lines;
static size_t written_length;

/* Takes what stands before the first such byte from the front, with the byte. */
static text cut(text *t, uint8_t byte) {
    const uint8_t *found = memchr(t->at, byte, t->length);
    text front = {t->at, found == 0 ? t->length : (size_t)(found - t->at)};
    size_t taken = front.length + (found != 0);
    *t = (text){t->at + taken, t->length - taken};
    return front;
}

static text read_file(const char *name, uint8_t *to) {
    int file = open(name, 0);
    text all = {to, 0};
    for (long count; (count = read(file, to + all.length, ROOM - all.length)) != 0; all.length += (size_t)count)
        hold(count > 0);
    hold(all.length < ROOM); /* and so a zero byte ends it */
    return all;
}

/* The one sequence of a FASTA file, its lines joined where they stand. */
static text read_reference(const char *name) {
    text rest = read_file(name, fasta);
    size_t length = 0;
    cut(&rest, '\n');
    while (rest.length > 0) {
        text line = cut(&rest, '\n');
        for (size_t i = 0; i < line.length; i++) fasta[length++] = line.at[i];
    }
    return (text){fasta, length};
}

/* The next line that is not of the header; of no bytes at the end. */
static text next_line(text *rest) {
    text line = cut(rest, '\n');
    while (line.length > 0 && line.at[0] == '#') line = cut(rest, '\n');
    return line;
}

static void flush(void) {
    hold(write(1, written, written_length) == (long)written_length);
    written_length = 0;
}

static void put(text cell, uint8_t end) {
    hold(cell.length < LONGEST);
    if (written_length + LONGEST > PIECE) flush();
    memcpy(written + written_length, cell.at, cell.length);
    written_length += cell.length;
    written[written_length++] = end;
}

static void put_number(uint64_t number) {
    char digits[24];
    int length = snprintf(digits, sizeof digits, "%lu", (unsigned long)number);
    put((text){(const uint8_t *)digits, (size_t)length}, '\t');
}

#define WORDS(words) ((text){(const uint8_t *)(words), sizeof(words) - 1})

static void put_row(const text columns[COLUMNS], text alternate) {
    uint64_t start = strtoul((const char *)columns[POS].at, 0, 10) - 1;
    put(columns[CHROM], '\t'), put(columns[POS], '\t'), put(columns[REF], '\t'), put(alternate, '\t');
    put(WORDS("given"), '\t');
    put_number(start), put_number(start + columns[REF].length);
    put(alternate, '\t'), put(WORDS("0"), '\t'), put(WORDS("0"), '\n');
}

static void write_columns(void) {
    text rest = lines, line, columns[COLUMNS];
    put(WORDS("CHROM\tPOS\tREF\tALT\tkind\tstart\tend\treplacement\tleft\tright"), '\n');
    while ((line = next_line(&rest)).length > 0) {
        for (int i = 0; i < COLUMNS; i++) columns[i] = cut(&line, '\t');
        for (text alternates = columns[ALT]; alternates.length > 0;) put_row(columns, cut(&alternates, ','));
    }
    flush();
}

static void make_forms(void) {
    text rest = lines, line;
    while ((line = next_line(&rest)).length > 0) {
        fv_counted places = fv_vcf_count(reference.at, reference.length, line.at, line.length);
        hold(places.refusal == 0);
        for (uint64_t i = 1; i <= places.count; i++)
            hold(fv_vcf_form(reference.at, reference.length, line.at, line.length, i, normal, PIECE, 0).refusal == 0);
    }
}

int main(int count, char **words) {
    hold(count == 4);
    reference = read_reference(words[2]);
    lines = read_file(words[3], calls);
    if (strcmp(words[1], "columns") == 0) {
        write_columns();
        return 0;
    }
    row forms = {"", make_forms, 0};
    measure(&forms, 1);
    printf("%.0f\n", forms.best);
    return 0;
}

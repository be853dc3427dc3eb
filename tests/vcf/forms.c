/*
 * Prints the normal form of each alternate in a VCF file.
 *
 * usage: forms REFERENCES.fa LINES.vcf
 *
 * The reference of a line is the FASTA file's of the name that CHROM has, or an empty one where it has none of that
 * name. The first five columns of each data line are printed, parted by spaces, with the count of the places or the
 * refusal; then, for each place, start, end, kind and replacement of the normal form (`.` for an empty one) and its
 * four numbers, or the refusal. A refusal is its number and its value.
 */
#include <stdint.h>
#include <stdio.h>
#include <stdlib.h>
#include <string.h>

#include "fearnavult.h"

enum { ROOM = 1 << 16, COLUMNS = 5 };

typedef struct {
    const uint8_t *at;
    size_t length;
} text;

static uint8_t sequences[ROOM], lines[ROOM], residues[ROOM], out[ROOM];

static text read_file(const char *name, uint8_t *to) {
    FILE *file = fopen(name, "rb");
    size_t length = file == NULL ? 0 : fread(to, 1, ROOM, file);
    if (file == NULL || fclose(file) != 0 || length == ROOM) {
        printf("forms: %s can't be read, or is too long\n", name);
        exit(2);
    }
    return (text){to, length};
}

/* What stands before the first such byte, or all. */
static text before(text t, uint8_t byte) {
    size_t i = 0;
    while (i < t.length && t.at[i] != byte) i++;
    return (text){t.at, i};
}

/* Takes a line from the front, and leaves it out with its line feed. */
static text next_line(text *t) {
    text line = before(*t, '\n');
    size_t taken = line.length + (line.length < t->length);
    *t = (text){t->at + taken, t->length - taken};
    return line;
}

static int equal(text one, text other) {
    return one.length == other.length && memcmp(one.at, other.at, one.length) == 0;
}

/* The residues under this name: the lines after `>` and the name, up to the next `>`. */
static text find_reference(text fasta, text name) {
    text found = {residues, 0};
    int wanted = 0;
    while (fasta.length > 0) {
        text line = next_line(&fasta);
        if (line.length > 0 && line.at[0] == '>') {
            wanted = equal(before((text){line.at + 1, line.length - 1}, ' '), name);
        } else if (wanted) {
            memcpy(residues + found.length, line.at, line.length);
            found.length += line.length;
        }
    }
    return found;
}

/* A byte that does not show is printed as its number. */
static void print_columns(text line) {
    for (size_t i = 0, tabs = 0; i < line.length; i++) {
        tabs += line.at[i] == '\t';
        if (tabs == COLUMNS)
            return;
        if (line.at[i] == '\t' || (line.at[i] >= ' ' && line.at[i] <= '~'))
            printf("%c", line.at[i] == '\t' ? ' ' : line.at[i]);
        else
            printf("\\x%02x", line.at[i]);
    }
}

static void print_form(text reference, text line, uint64_t alternate) {
    static const char *const kinds[] = {"unchanged", "substitution", "indel"};
    fv_form f = fv_vcf_form(reference.at, reference.length, line.at, line.length, alternate, out, ROOM, 0);
    printf("  %d: ", (int)alternate);
    if (f.refusal != 0)
        printf("refused %d %d\n", (int)f.refusal, (int)f.value);
    else
        printf("%d %d %s %.*s %d %d %d %d\n", (int)f.start, (int)f.end, kinds[f.kind],
               f.length > 0 ? (int)f.length : 1, f.length > 0 ? (const char *)out : ".", (int)f.left_widened,
               (int)f.left_shrunk, (int)f.right_widened, (int)f.right_shrunk);
}

static void print_line(text reference, text line) {
    fv_counted c = fv_vcf_count(reference.at, reference.length, line.at, line.length);
    print_columns(line);
    if (c.refusal != 0)
        printf(": refused %d %d\n", (int)c.refusal, (int)c.value);
    else
        printf(": %d\n", (int)c.count);
    for (uint64_t alternate = 1; alternate <= c.count; alternate++) print_form(reference, line, alternate);
}

int main(int count, char **words) {
    if (count != 3)
        return 2;
    text fasta = read_file(words[1], sequences), vcf = read_file(words[2], lines);
    while (vcf.length > 0) {
        text line = next_line(&vcf);
        if (line.length > 0 && line.at[0] != '#')
            print_line(find_reference(fasta, before(line, '\t')), line);
    }
    return 0;
}

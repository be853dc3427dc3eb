/*
 * An allele drawn on its reference: positions, residues, the interval as given, how either end moved, and the normal
 * interval. Only the positions near an end are shown, in runs.
 */
#include "program.h"

#include <inttypes.h>
#include <stdio.h>
#include <stdlib.h>
#include <string.h>

/*
 * Columns, but for how many positions around a point are shown, from FAR down to NEAR, and how many hidden ones are
 * bridged. With NEAR no picture is wider than 75, so that a row has room for a number that begins there.
 */
enum { POINTS = 4, FAR = 10, NEAR = 3, BRIDGED = 2, LABEL = 11, DOTS = 4, GAP = 5, WIDEST = 64, ROW = 128 };

typedef struct {
    uint64_t first, last;
    size_t column; /* of the first */
} run;

typedef struct {
    const buffer *residues;
    run runs[POINTS];
    size_t count, width;
    buffer out;
} picture;

static size_t column_in(const run *r, uint64_t position) {
    return r->column + 2 * (size_t)(position - r->first);
}

static size_t column_at(const picture *p, uint64_t position) {
    const run *r = p->runs;
    while (position > r->last) r++;
    return column_in(r, position);
}

static void find_runs(picture *p, const uint64_t points[POINTS], uint64_t near) {
    uint64_t length = p->residues->length;
    p->count = 0;
    for (size_t i = 0; i < POINTS; i++) {
        uint64_t first = points[i] < near ? 0 : points[i] - near;
        uint64_t last = length - points[i] < near ? length : points[i] + near;
        if (p->count == 0 || first > p->runs[p->count - 1].last + BRIDGED + 1)
            p->runs[p->count++].first = first;
        p->runs[p->count - 1].last = last;
    }
}

static void place_runs(picture *p) {
    size_t column = p->runs[0].first == 0 ? 0 : DOTS;
    for (size_t i = 0; i < p->count; i++) {
        p->runs[i].column = column;
        column = column_in(&p->runs[i], p->runs[i].last) + 1 + GAP;
    }
    p->width = column - GAP + (p->runs[p->count - 1].last < p->residues->length ? DOTS : 0);
}

static void lay_out(picture *p, const uint64_t points[POINTS]) {
    uint64_t near = FAR + 1;
    do {
        find_runs(p, points, --near);
        place_runs(p);
    } while (p->width > WIDEST && near > NEAR);
}

/* A number that would run into the one before it, or into the next run, is left out. */
static size_t draw_numbers_of(const run *r, bool is_last, size_t free_from, char row[ROW]) {
    char number[WORDS_ROOM];
    for (uint64_t position = r->first; position <= r->last; position += 5 - position % 5) {
        size_t column = column_in(r, position);
        size_t length = (size_t)snprintf(number, sizeof number, "%" PRIu64, position);
        bool fits = is_last || column + length <= column_in(r, r->last) + GAP;
        if (position > r->first && (column < free_from || !fits))
            continue;
        memcpy(row + column, number, length);
        free_from = column + length + 1;
    }
    return free_from;
}

static void draw_numbers(const picture *p, char row[ROW]) {
    size_t free_from = 0;
    for (size_t i = 0; i < p->count; i++)
        free_from = draw_numbers_of(&p->runs[i], i + 1 == p->count, free_from, row);
}

static void draw_residues_of(const picture *p, const run *r, char row[ROW]) {
    for (uint64_t position = r->first; position < r->last; position++) {
        uint8_t byte = p->residues->at[position];
        row[column_in(r, position) + 1] = byte >= 0x21 && byte <= 0x7e ? (char)byte : '?';
    }
    if (r->last < p->residues->length)
        memcpy(row + column_in(r, r->last) + 2, "...", 3);
}

static void draw_residues(const picture *p, char row[ROW]) {
    if (p->runs[0].first > 0)
        memcpy(row, "...", 3);
    for (size_t i = 0; i < p->count; i++) draw_residues_of(p, &p->runs[i], row);
}

/* A line between two positions, either way round, dotted where it crosses from run to run. */
static void draw_line(const picture *p, uint64_t one, uint64_t other, char row[ROW]) {
    size_t from = column_at(p, one < other ? one : other), to = column_at(p, one < other ? other : one);
    memset(row + from, '-', to + 1 - from);
    for (size_t i = 0; i + 1 < p->count; i++) {
        size_t end = column_in(&p->runs[i], p->runs[i].last);
        if (from <= end && end < to)
            memset(row + end + 2, '.', 3);
    }
}

static void draw_moves(const picture *p, const allele *given, const allele *normal, char row[ROW]) {
    bool left = given->start != normal->start, right = given->end != normal->end;
    if (left)
        draw_line(p, given->start, normal->start, row);
    if (right)
        draw_line(p, given->end, normal->end, row);
    if (left)
        row[column_at(p, normal->start)] = normal->start < given->start ? '<' : '>';
    if (right)
        row[column_at(p, normal->end)] = normal->end > given->end ? '>' : '<';
    if (left && right && normal->start == normal->end)
        row[column_at(p, normal->end)] = 'X';
}

static void begin_row(picture *p, const char *label, const char row[ROW], size_t columns) {
    append_words(&p->out, label);
    append_blanks(&p->out, LABEL - strlen(label));
    append(&p->out, row, columns);
}

static void end_row(picture *p, char row[ROW]) {
    while (p->out.at[p->out.length - 1] == ' ') p->out.length--;
    append_words(&p->out, "\n");
    memset(row, ' ', ROW);
}

static void add_interval(picture *p, const char *label, const allele *a, char row[ROW]) {
    draw_line(p, a->start, a->end, row);
    row[column_at(p, a->start)] = row[column_at(p, a->end)] = '|';
    begin_row(p, label, row, p->width);
    append_words(&p->out, "  ");
    append_number(&p->out, a->start);
    append_words(&p->out, " ");
    append_number(&p->out, a->end);
    append_words(&p->out, " ");
    append_elided(&p->out, a->replacement);
    end_row(p, row);
}

static void append_side(buffer *out, const char *side, uint64_t inner, uint64_t outer) {
    append_words(out, side);
    append_moved(out, inner > outer ? inner - outer : 0, outer > inner ? outer - inner : 0);
}

static void add_moves(picture *p, const allele *given, const allele *normal, char row[ROW]) {
    draw_moves(p, given, normal, row);
    begin_row(p, "moved", row, p->width);
    append_side(&p->out, "  left ", given->start, normal->start);
    append_side(&p->out, ", right ", normal->end, given->end);
    end_row(p, row);
}

static int ascending(const void *one, const void *other) {
    uint64_t a = *(const uint64_t *)one, b = *(const uint64_t *)other;
    return (a > b) - (a < b);
}

void print_picture(const reference *f, const allele *given, const allele *normal) {
    const allele *first = given != NULL ? given : normal;
    uint64_t points[POINTS] = {first->start, first->end, normal->start, normal->end};
    picture p = {.residues = &f->residues};
    char row[ROW];
    memset(row, ' ', ROW);
    qsort(points, POINTS, sizeof *points, ascending);
    lay_out(&p, points);
    append_words(&p.out, "\n");
    draw_numbers(&p, row);
    begin_row(&p, "position", row, ROW);
    end_row(&p, row);
    draw_residues(&p, row);
    begin_row(&p, "reference", row, ROW);
    end_row(&p, row);
    if (given != NULL) {
        add_interval(&p, "given", given, row);
        add_moves(&p, given, normal, row);
    }
    add_interval(&p, "normal", normal, row);
    print_bytes(p.out.at, p.out.length);
    print_all();
    free(p.out.at);
}

/*
 * Answers in columns: parted by tabs, in full, or for people, aligned, with long sequences cut down. A cell belongs to
 * the column after that of the cell before it.
 */
#include "program.h"

#include <stdlib.h>
#include <string.h>

enum { ENDS = 10, PIECE = 1 << 16 };

/* The length of a cell after a refusal. */
static const size_t absent = SIZE_MAX;

static bool among(text name, const char *const *names) {
    while (*names != NULL && !same(name, text_of(*names))) names++;
    return *names != NULL;
}

static table_column column_of(text name) {
    static const char *const right[] = {"POS", "records", "journal", "pool", "residues", "numbers", "active",
                                        "number", "start", "end", "left", "right", NULL};
    static const char *const elided[] = {"REF", "ALT", "replacement", NULL};
    return (table_column){name, name.length, among(name, right), among(name, elided)};
}

/* Bytes of a file or of a sequence: those that do not show are masked, and where there are none a full stop stands. */
void append_masked(buffer *b, text bytes) {
    if (bytes.length == 0)
        bytes = text_of(".");
    reserve(b, bytes.length);
    uint8_t *to = b->at + b->length;
    for (size_t i = 0; i < bytes.length; i++) to[i] = bytes.at[i] >= 0x21 && bytes.at[i] <= 0x7e ? bytes.at[i] : '?';
    b->length += bytes.length;
}

/* A sequence for people. */
void append_elided(buffer *b, text cell) {
    if (cell.length <= 2 * ENDS + 3) {
        append_masked(b, cell);
        return;
    }
    append_masked(b, (text){cell.at, ENDS});
    append(b, "...", 3);
    append_masked(b, (text){cell.at + cell.length - ENDS, ENDS});
}

/* Where rows needn't wait, full pieces of them go out. */
static void pass_on(table *t) {
    if (t->held || t->bytes.length < PIECE)
        return;
    print_bytes(t->bytes.at, t->bytes.length);
    t->bytes.length = 0;
}

static void append_in_full(table *t, text cell) {
    do {
        size_t count = cell.length < PIECE ? cell.length : PIECE;
        append_masked(&t->bytes, (text){cell.at, count});
        pass_on(t);
        cell = (text){cell.at + count, cell.length - count};
    } while (cell.length > 0);
}

/* Counts a cell whose bytes have been appended; with tabs, what parts it from the next one follows. */
static void end_cell(table *t, size_t length, bool wide) {
    size_t place = t->cells++ % t->count;
    if (t->tsv) {
        append(&t->bytes, place + 1 < t->count ? "\t" : "\n", 1);
        pass_on(t);
        return;
    }
    append(&t->lengths, &length, sizeof length);
    if (wide && length > t->columns[place].width)
        t->columns[place].width = length;
}

/* The names are parted by blanks, and outlast the table. */
void begin_table(table *t, const char *names, bool tsv) {
    *t = (table){.tsv = tsv, .held = !tsv};
    for (text rest = text_of(names); rest.length > 0; t->count++) {
        const uint8_t *blank = memchr(rest.at, ' ', rest.length);
        size_t length = blank == NULL ? rest.length : (size_t)(blank - rest.at);
        t->columns[t->count] = column_of((text){rest.at, length});
        size_t taken = length + (blank != NULL);
        rest = (text){rest.at + taken, rest.length - taken};
    }
    for (size_t i = 0; t->tsv && i < t->count; i++) add_bytes(t, t->columns[i].name);
}

/* A cell with bytes of a file or of a sequence. */
void add_bytes(table *t, text cell) {
    size_t before = t->bytes.length;
    if (!t->tsv && t->columns[t->cells % t->count].elided)
        append_elided(&t->bytes, cell);
    else
        append_in_full(t, cell);
    end_cell(t, t->bytes.length - before, true);
}

/* A cell with the program's own words. */
void add_words(table *t, const char *words) {
    append_words(&t->bytes, words);
    end_cell(t, strlen(words), true);
}

void add_number(table *t, uint64_t number) {
    size_t before = t->bytes.length;
    append_number(&t->bytes, number);
    end_cell(t, t->bytes.length - before, true);
}

void append_moved(buffer *b, uint64_t widened, uint64_t shrunk) {
    append_words(b, widened > 0 ? "+" : shrunk > 0 ? "-" : "");
    append_number(b, widened + shrunk);
}

void add_moved(table *t, uint64_t widened, uint64_t shrunk) {
    size_t before = t->bytes.length;
    append_moved(&t->bytes, widened, shrunk);
    end_cell(t, t->bytes.length - before, true);
}

/* A refusal takes the rest of its row. */
void add_refusal(table *t, uint64_t refusal, uint64_t value) {
    char words[WORDS_ROOM];
    refusal_words(words, refusal, value);
    append_words(&t->bytes, words);
    end_cell(t, strlen(words), false);
    while (t->cells % t->count != 0) end_cell(t, absent, false);
}

static void append_cell(buffer *line, const table_column *c, text cell) {
    size_t blanks = c->width > cell.length ? c->width - cell.length : 0;
    append_blanks(line, (line->length > 0 ? 2 : 0) + (c->right ? blanks : 0));
    append(line, cell.at, cell.length);
    append_blanks(line, c->right ? 0 : blanks);
}

static void print_line(buffer *line) {
    while (line->length > 0 && line->at[line->length - 1] == ' ') line->length--;
    append(line, "\n", 1);
    print_bytes(line->at, line->length);
    line->length = 0;
}

static void print_header(table *t, buffer *line) {
    for (size_t i = 0; i < t->count; i++) append_cell(line, &t->columns[i], t->columns[i].name);
    print_line(line);
    t->headed = true;
}

static void print_aligned(table *t) {
    buffer line = {0};
    text rest = bytes_of(&t->bytes);
    if (!t->headed)
        print_header(t, &line);
    for (size_t i = 0; i < t->cells; i++) {
        size_t length;
        memcpy(&length, t->lengths.at + i * sizeof length, sizeof length);
        if (length != absent) {
            append_cell(&line, &t->columns[i % t->count], (text){rest.at, length});
            rest = (text){rest.at + length, rest.length - length};
        }
        if ((i + 1) % t->count == 0)
            print_line(&line);
    }
    free(line.at);
}

/* Prints the rows since the last time, and forgets them; the columns stay as wide as they were. */
void print_table(table *t) {
    if (t->tsv)
        print_bytes(t->bytes.at, t->bytes.length);
    else
        print_aligned(t);
    print_all();
    t->bytes.length = t->lengths.length = t->cells = 0;
}

/*
 * The lines of a VCF file: each alternate of each line on the reference is formed, or entered into a register. A
 * refusal is an answer in its row. Rows are printed only after the save that holds them.
 */
#include "program.h"

#include <errno.h>
#include <fcntl.h>
#include <inttypes.h>
#include <stdio.h>
#include <stdlib.h>
#include <string.h>
#include <sys/stat.h>
#include <unistd.h>

enum { CHROM, POS, ID, REF, ALT, COLUMNS };
enum { BAR = 20, LINES_A_DRAWING = 1000 };

typedef struct {
    session *s;
    bool entering;        /* or only forming */
    buffer out;           /* a normal replacement */
    buffer alternate;     /* in upper case */
    buffer other;         /* the first other sequence's name */
    uint64_t own, others; /* lines */
    uint64_t formed, refused, answers[FV_KNOWN + 1];
} calls;

/* How far the file is read. */
typedef struct {
    bool wanted;
    uint64_t size; /* 0 where it is not known */
    uint64_t read, lines;
    uint64_t drawn; /* the percentage, and one */
} progress;

static text before(text t, uint8_t byte) {
    const uint8_t *found = memchr(t.at, byte, t.length);
    return (text){t.at, found == NULL ? t.length : (size_t)(found - t.at)};
}

/* Takes what stands before the first such byte from the front, with the byte. */
static text cut(text *t, uint8_t byte) {
    text front = before(*t, byte);
    size_t taken = front.length + (front.length < t->length);
    *t = (text){t->at + taken, t->length - taken};
    return front;
}

/* CHROM, POS, REF and an alternate, or all of ALT. */
static void begin_row(calls *c, const text columns[COLUMNS], text alternate) {
    add_bytes(&c->s->t, columns[CHROM]);
    add_bytes(&c->s->t, columns[POS]);
    add_bytes(&c->s->t, columns[REF]);
    add_bytes(&c->s->t, alternate);
}

static void refuse_row(calls *c, uint64_t refusal, uint64_t value) {
    c->refused++;
    add_refusal(&c->s->t, refusal, value);
}

static void copy_upper_case(buffer *to, text from) {
    to->length = 0;
    append(to, from.at, from.length);
    for (size_t i = 0; i < to->length; i++)
        to->at[i] = (uint8_t)(to->at[i] >= 'a' && to->at[i] <= 'z' ? to->at[i] - 'a' + 'A' : to->at[i]);
}

static fv_form form_alternate(calls *c, text line, uint64_t place) {
    const buffer *residues = &c->s->f.residues;
    return fv_vcf_form(residues->at, residues->length, line.at, line.length, place, c->out.at, c->out.room, 0);
}

/* Enters the allele of the line itself: the normal interval, moved back. */
static void enter_alternate(calls *c, const fv_form *form, text alternate) {
    copy_upper_case(&c->alternate, alternate);
    allele given = {form->start + form->left_widened - form->left_shrunk,
                    form->end - form->right_widened + form->right_shrunk, bytes_of(&c->alternate)};
    fv_entered e = enter_allele(c->s, &given);
    if (e.refusal != FV_ACCEPTED) {
        refuse_row(c, e.refusal, e.value);
        return;
    }
    c->answers[e.answer]++;
    add_entered(c->s, &given, &e);
}

static void take_alternate(calls *c, text line, uint64_t place, text alternate) {
    fv_form form = form_alternate(c, line, place);
    if (form.refusal == FV_NO_ROOM) {
        reserve(&c->out, form.value);
        form = form_alternate(c, line, place);
    }
    if (form.refusal != FV_ACCEPTED) {
        refuse_row(c, form.refusal, form.value);
    } else if (c->entering) {
        enter_alternate(c, &form, alternate);
    } else {
        c->formed++;
        add_form(&c->s->t, &form, c->out.at);
    }
}

static void save_and_print(calls *c) {
    if (c->entering)
        save_register(&c->s->r);
    print_table(&c->s->t);
}

static void take_own_line(calls *c, text line, const text columns[COLUMNS]) {
    c->own++;
    fv_counted counted = fv_vcf_count(c->s->f.residues.at, c->s->f.residues.length, line.at, line.length);
    if (counted.refusal != FV_ACCEPTED) {
        begin_row(c, columns, columns[ALT]);
        refuse_row(c, counted.refusal, counted.value);
    }
    text rest = columns[ALT];
    for (uint64_t place = 1; place <= counted.count; place++) {
        text alternate = cut(&rest, ',');
        begin_row(c, columns, alternate);
        take_alternate(c, line, place, alternate);
    }
    if (c->s->o.every > 0 && c->own % c->s->o.every == 0)
        save_and_print(c);
}

static void take_line(calls *c, text line) {
    text rest = line, columns[COLUMNS];
    if (line.length == 0 || line.at[0] == '#')
        return;
    for (size_t i = 0; i < COLUMNS; i++) columns[i] = cut(&rest, '\t');
    if (columns[CHROM].length == line.length || same(columns[CHROM], bytes_of(&c->s->f.name)))
        take_own_line(c, line, columns);
    else if (c->others++ == 0)
        append_masked(&c->other, columns[CHROM]);
}

static void draw_progress(progress *p) {
    char words[WORDS_ROOM], bar[BAR + 1] = "";
    uint64_t percentage = p->size == 0 ? 0 : p->read >= p->size ? 100 : p->read * 100 / p->size;
    if (!p->wanted || (p->size == 0 ? p->lines % LINES_A_DRAWING != 0 : p->drawn == percentage + 1))
        return;
    p->drawn = percentage + 1;
    for (size_t i = 0; i < BAR; i++) bar[i] = i < percentage * BAR / 100 ? '#' : '.';
    if (p->size == 0)
        snprintf(words, sizeof words, "%" PRIu64 " lines", p->lines);
    else
        snprintf(words, sizeof words, "[%s] %3" PRIu64 " %% %" PRIu64 " lines", bar, percentage, p->lines);
    show_progress(words);
}

static FILE *open_calls(const char *path, const char *name, progress *p) {
    struct stat status;
    bool standard = strcmp(path, "-") == 0;
    int opened = standard ? STDIN_FILENO : open(path, O_RDONLY | O_CLOEXEC);
    FILE *file = standard ? stdin : opened < 0 ? NULL : fdopen(opened, "r");
    if (file == NULL || fstat(opened, &status) != 0)
        fail(name, strerror(errno));
    p->wanted = isatty(STDERR_FILENO) == 1;
    p->size = S_ISREG(status.st_mode) ? (uint64_t)status.st_size : 0;
    return file;
}

/* A line without what ends it. */
static text line_of(const char *bytes, size_t length) {
    length -= length > 0 && bytes[length - 1] == '\n';
    length -= length > 0 && bytes[length - 1] == '\r';
    return (text){(const uint8_t *)bytes, length};
}

static void take_lines(calls *c, progress *p, FILE *file, const char *name) {
    char *bytes = NULL;
    size_t room = 0;
    ssize_t length;
    while ((length = getline(&bytes, &room, file)) >= 0) {
        if (p->lines++ == 0 && length > 1 && memcmp(bytes, "\x1f\x8b", 2) == 0)
            fail(name, "compressed, unpack it first");
        take_line(c, line_of(bytes, (size_t)length));
        p->read += (uint64_t)length;
        draw_progress(p);
    }
    if (!feof(file) || fclose(file) != 0)
        fail(name, strerror(errno));
    free(bytes);
}

static void append_count(buffer *b, uint64_t number, const char *words) {
    append_number(b, number);
    append_words(b, words);
}

static void say_counts(const calls *c, const char *name) {
    buffer line = {0};
    append_count(&line, c->own, c->own == 1 ? " line of " : " lines of ");
    append_masked(&line, bytes_of(&c->s->f.name));
    append_words(&line, ": ");
    if (c->entering) {
        append_count(&line, c->answers[FV_NEW], " new, ");
        append_count(&line, c->answers[FV_AGAIN], " again, ");
        append_count(&line, c->answers[FV_KNOWN], " known, ");
    } else {
        append_count(&line, c->formed, " formed, ");
    }
    append_count(&line, c->refused, c->others > 0 ? " refused; " : " refused");
    if (c->others > 0)
        append_count(&line, c->others, " of other sequences, the first of ");
    append(&line, c->other.at, c->other.length);
    append(&line, "", 1);
    say("%s: %s", name, (const char *)line.at);
    free(line.at);
}

int take_calls(session *s, bool entering) {
    static const char formed[] = "CHROM POS REF ALT kind start end replacement left right";
    static const char entered[] = "CHROM POS REF ALT answer number start end replacement left right identifier";
    const char *name = strcmp(s->o.vcf, "-") == 0 ? "standard input" : s->o.vcf;
    calls c = {.s = s, .entering = entering};
    progress p = {0};
    FILE *file = open_calls(s->o.vcf, name, &p);
    begin_table(&s->t, entering ? entered : formed, s->o.tsv);
    s->t.held |= entering;
    reserve(&c.out, 0);
    reserve(&c.other, 0);
    take_lines(&c, &p, file, name);
    save_and_print(&c);
    say_counts(&c, name);
    free(c.out.at);
    free(c.alternate.at);
    free(c.other.at);
    return c.refused > 0;
}

/*
 * The program fearnavult: what its files share. main.c reads the arguments and commands.c answers them, by calls of the
 * library; the others read and write files, tables and pictures. What can't go on ends the program where it stands.
 */
#ifndef PROGRAM_H
#define PROGRAM_H

#define _XOPEN_SOURCE 700

#include <stdbool.h>
#include <stddef.h>
#include <stdint.h>

#include "fearnavult.h"

/* Bytes that belong to something else. `at` is never null. */
typedef struct {
    const uint8_t *at;
    size_t length;
} text;

/* Bytes that grow. `at` is null until room is reserved. */
typedef struct {
    uint8_t *at;
    size_t length, room;
} buffer;

/* An allele as given, or a normal form. */
typedef struct {
    uint64_t start, end;
    text replacement;
} allele;

/* What the arguments say. A name that is not given is null, and `every` is then 0. */
typedef struct {
    const char *register_name, *reference, *sequence, *vcf;
    uint64_t records, journal, pool, every, number;
    allele given;
    bool force, tsv;
} options;

/* A sequence of a FASTA file. */
typedef struct {
    buffer name, residues;
    uint8_t identifier[FV_IDENTIFIER_LENGTH]; /* where it was asked for */
    const uint8_t *digest;                    /* its last bytes */
} reference;

/* The file of a register. */
typedef struct {
    const char *name; /* as given */
    char *path;       /* the file itself, where the name is a link's */
    buffer image;
    buffer saved; /* the image, as the file has it */
    bool replaces; /* a file that is there, with this mode */
    unsigned mode;
} register_file;

/* Answers in columns: rows that are not printed yet. */
enum { MOST_COLUMNS = 12 };
typedef struct {
    text name;
    size_t width;
    bool right, elided;
} table_column;
typedef struct {
    bool tsv, headed;
    bool held; /* until it is printed; else, with tabs, pieces go out as they are full */
    table_column columns[MOST_COLUMNS];
    size_t count, cells;
    buffer bytes;   /* of the cells; with tabs, the lines as they are printed */
    buffer lengths; /* of the cells, a size_t each */
} table;

/* All that a command uses. It lasts until the program ends. */
typedef struct {
    options o;
    register_file r;
    reference f;
    table t;
} session;

/* commands.c: each answers the status. */
int blank_command(session *s);
int enter_command(session *s);
int withdraw_command(session *s);
int undo_command(session *s);
int seal_command(session *s);
int list_command(session *s);
int show_command(session *s);
int form_command(session *s);
int identify_command(session *s);
int check_command(session *s);
fv_entered enter_allele(session *s, const allele *given);
void add_entered(session *s, const allele *given, const fv_entered *e);
void add_form(table *t, const fv_form *form, const uint8_t *replacement);

/* vcf.c: each alternate of a VCF file is entered into the register, or only formed; answers the status. */
int take_calls(session *s, bool entering);

/* help.c: the page of a command, or of all where the name is null. */
const char *help_page(const char *command);

/* words.c: what is said, standard output, memory and reading; each failure ends the program. */
enum { WORDS_ROOM = 128 };
void refusal_words(char words[WORDS_ROOM], uint64_t refusal, uint64_t value);
void say(const char *format, ...);
_Noreturn void fail(const char *file, const char *why);
_Noreturn void refuse(uint64_t refusal, uint64_t value);
void expect_accepted(uint64_t refusal, uint64_t value);
void show_progress(const char *bar);
void print_bytes(const void *bytes, size_t length);
void print_all(void);
void reserve(buffer *b, size_t more);
void append(buffer *b, const void *bytes, size_t length);
void append_words(buffer *b, const char *words);
void append_number(buffer *b, uint64_t number);
void append_blanks(buffer *b, size_t count);
text text_of(const char *words);
text bytes_of(const buffer *b);
bool same(text one, text other);
size_t read_piece(int file, const char *name, uint8_t *to, size_t room);

/* reference.c */
void read_reference(reference *r, const char *file, const char *wanted);
void identify_reference(reference *r);

/* register.c */
void open_register(register_file *r, const char *name);
void open_register_to_change(register_file *r, const char *name);
void open_register_to_blank(register_file *r, const char *name, bool force);
void save_register(register_file *r);

/* table.c */
void begin_table(table *t, const char *names, bool tsv);
void add_bytes(table *t, text cell);
void add_words(table *t, const char *words);
void add_number(table *t, uint64_t number);
void add_moved(table *t, uint64_t widened, uint64_t shrunk);
void add_refusal(table *t, uint64_t refusal, uint64_t value);
void print_table(table *t);
void append_moved(buffer *b, uint64_t widened, uint64_t shrunk);
void append_masked(buffer *b, text bytes);
void append_elided(buffer *b, text cell);

/* picture.c: a normal form on its reference; `given` is null where only that is to be shown. */
void print_picture(const reference *f, const allele *given, const allele *normal);

#endif

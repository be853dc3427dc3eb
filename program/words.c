/*
 * What the program says on standard error, refusals in words; standard output with its errors looked at; and memory
 * that ends the program where there is none.
 */
#include "program.h"

#include <errno.h>
#include <inttypes.h>
#include <stdarg.h>
#include <stdio.h>
#include <stdlib.h>
#include <string.h>
#include <unistd.h>

static const char *words_of(uint64_t refusal, uint64_t value) {
    switch (refusal) {
    case FV_OVER_LIMIT:
        return value == 0 ? "the reference has over 1000000000 residues" : "the replacement has over 1000000 residues";
    case FV_START_ABOVE_END: return "the start is above the end";
    case FV_END_PAST_REFERENCE: return "the end is past the reference, which has %" PRIu64 " residues";
    case FV_FOREIGN_INPUT: return "byte %" PRIu64 " of the replacement is no residue";
    case FV_FOREIGN_NORMAL: return "byte %" PRIu64 " of the normal replacement is no residue";
    case FV_BAD_CAPACITY: return "over a limit: 10000 records, 10000 journal entries, 10000000 residues in the pool";
    case FV_NOT_WELL_FORMED: return "not a well-formed register";
    case FV_OTHER_REFERENCE:
        return value == 0 ? "the reference has another digest than the register's"
                          : "the reference has another length than the register's";
    case FV_NO_CHANGE: return "unchanged, it makes the reference itself";
    case FV_NO_RECORD: return "no free record, capacity %" PRIu64;
    case FV_NO_POOL_ROOM: return "no room in the pool, capacity %" PRIu64;
    case FV_NO_JOURNAL_ROOM: return "no free journal entry, capacity %" PRIu64;
    case FV_NO_SUCH_NUMBER: return "no such number, %" PRIu64 " issued";
    case FV_NOT_ACTIVE: return "number %" PRIu64 " is not active";
    case FV_NOTHING_TO_UNDO: return "nothing to undo";
    case FV_BAD_LINE: return "not a data line on this reference";
    case FV_REF_DIFFERS: return "letter %" PRIu64 " of REF is not the reference's";
    case FV_BAD_ALTERNATE: return "alternate %" PRIu64 " is not made of letters";
    default: return "value %" PRIu64;
    }
}

void refusal_words(char words[WORDS_ROOM], uint64_t refusal, uint64_t value) {
    int length = snprintf(words, WORDS_ROOM, "refused %" PRIu64 ": ", refusal);
    snprintf(words + length, WORDS_ROOM - (size_t)length, words_of(refusal, value), value);
}

/* Whether a progress bar stands on standard error. */
static bool progress_stands;

static void wipe_progress(void) {
    if (progress_stands)
        fputs("\r\033[K", stderr);
    progress_stands = false;
}

void show_progress(const char *bar) {
    fprintf(stderr, "\r%s", bar);
    progress_stands = true;
}

/* A line on standard error. */
void say(const char *format, ...) {
    va_list values;
    va_start(values, format);
    wipe_progress();
    vfprintf(stderr, format, values);
    fputs("\n", stderr);
    va_end(values);
}

void fail(const char *file, const char *why) {
    say("fearnavult: %s: %s", file, why);
    exit(2);
}

void refuse(uint64_t refusal, uint64_t value) {
    char words[WORDS_ROOM];
    refusal_words(words, refusal, value);
    say("%s", words);
    exit(1);
}

void expect_accepted(uint64_t refusal, uint64_t value) {
    if (refusal != FV_ACCEPTED)
        refuse(refusal, value);
}

void print_bytes(const void *bytes, size_t length) {
    wipe_progress();
    if (length > 0 && fwrite(bytes, 1, length, stdout) != length)
        fail("standard output", strerror(errno));
}

void print_all(void) {
    if (fflush(stdout) != 0)
        fail("standard output", strerror(errno));
}

/* Room for so many more bytes; where it has to grow it doubles. */
void reserve(buffer *b, size_t more) {
    size_t needed = b->length + more, doubled = 2 * b->room > 64 ? 2 * b->room : 64;
    if (b->at != NULL && needed <= b->room)
        return;
    b->room = needed > doubled ? needed : doubled;
    uint8_t *at = needed < more ? NULL : realloc(b->at, b->room);
    if (at == NULL)
        fail("memory", strerror(ENOMEM));
    b->at = at;
}

void append(buffer *b, const void *bytes, size_t length) {
    reserve(b, length);
    memcpy(b->at + b->length, bytes, length);
    b->length += length;
}

void append_words(buffer *b, const char *words) {
    append(b, words, strlen(words));
}

void append_number(buffer *b, uint64_t number) {
    char digits[WORDS_ROOM];
    snprintf(digits, sizeof digits, "%" PRIu64, number);
    append_words(b, digits);
}

void append_blanks(buffer *b, size_t count) {
    reserve(b, count);
    memset(b->at + b->length, ' ', count);
    b->length += count;
}

text text_of(const char *words) {
    return (text){(const uint8_t *)words, strlen(words)};
}

text bytes_of(const buffer *b) {
    return b->at == NULL ? text_of("") : (text){b->at, b->length};
}

bool same(text one, text other) {
    return one.length == other.length && memcmp(one.at, other.at, one.length) == 0;
}

/* Reads until the room is full or the file ends, and answers how much it read. */
size_t read_piece(int file, const char *name, uint8_t *to, size_t room) {
    size_t length = 0;
    ssize_t count = 1;
    while (count > 0 && length < room) {
        count = read(file, to + length, room - length);
        if (count < 0)
            fail(name, strerror(errno));
        length += (size_t)count;
    }
    return length;
}

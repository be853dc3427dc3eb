/*
 * A sequence of a FASTA file, read in pieces: only the one that is chosen is kept, once, in upper case. Bytes that are
 * no residues are kept as they are, so that the library refuses them.
 */
#include "program.h"

#include <errno.h>
#include <fcntl.h>
#include <inttypes.h>
#include <stdio.h>
#include <stdlib.h>
#include <string.h>
#include <unistd.h>

enum { PIECE = 1 << 18 };

/* One more than the library takes, so that it refuses the reference. */
static const size_t most_kept = (size_t)FV_REFERENCE_LIMIT + 1;

typedef struct {
    reference *kept;
    const char *wanted; /* null: the first */
    buffer name;        /* of the sequence that is read */
    uint64_t sequences, found;
    enum { LINE_START, NAME, AFTER_NAME, RESIDUES } where;
    bool keeping;
    bool return_held; /* a carriage return that is dropped where the line ends after it */
} reader;

static void take_name(reader *r, text part) {
    size_t length = 0;
    while (length < part.length && part.at[length] != ' ' && part.at[length] != '\t') length++;
    append(&r->name, part.at, length);
    if (length < part.length)
        r->where = AFTER_NAME;
}

static void end_name(reader *r) {
    bool chosen = r->wanted == NULL ? r->sequences == 0 : same(bytes_of(&r->name), text_of(r->wanted));
    r->sequences++;
    r->found += chosen;
    r->keeping = chosen && r->found == 1;
    if (r->keeping) {
        r->kept->name = r->name;
        r->name = (buffer){0};
    }
    r->name.length = 0;
}

static void keep_residues(buffer *residues, text part) {
    size_t left = most_kept - residues->length;
    size_t count = part.length < left ? part.length : left;
    reserve(residues, count);
    uint8_t *to = residues->at + residues->length;
    for (size_t i = 0; i < count; i++) {
        uint8_t byte = part.at[i];
        to[i] = (uint8_t)((uint8_t)(byte - 'a') < 26 ? byte - 'a' + 'A' : byte);
    }
    residues->length += count;
}

/* Takes a part of a line, without what ends it. */
static void take_part(reader *r, text part) {
    if (part.length == 0)
        return;
    if (r->where == LINE_START) {
        bool names = *part.at == '>';
        r->where = names ? NAME : RESIDUES;
        part = (text){part.at + names, part.length - names};
    }
    if (r->where == NAME)
        take_name(r, part);
    else if (r->where == RESIDUES && r->keeping)
        keep_residues(&r->kept->residues, part);
}

/* Takes what stands before a line feed or before the end of the piece that was read. */
static void take_stretch(reader *r, text stretch) {
    if (stretch.length == 0)
        return;
    if (r->return_held)
        take_part(r, text_of("\r"));
    r->return_held = stretch.at[stretch.length - 1] == '\r';
    take_part(r, (text){stretch.at, stretch.length - r->return_held});
}

static void end_line(reader *r) {
    if (r->where == NAME || r->where == AFTER_NAME)
        end_name(r);
    r->where = LINE_START;
    r->return_held = false;
}

static void take_piece(reader *r, text piece) {
    while (piece.length > 0) {
        const uint8_t *feed = memchr(piece.at, '\n', piece.length);
        size_t length = feed == NULL ? piece.length : (size_t)(feed - piece.at);
        take_stretch(r, (text){piece.at, length});
        if (feed == NULL)
            return;
        end_line(r);
        piece = (text){feed + 1, piece.length - length - 1};
    }
}

static void expect_fasta(const char *file, text piece) {
    if (piece.length > 1 && piece.at[0] == 0x1f && piece.at[1] == 0x8b)
        fail(file, "compressed, unpack it first");
    if (piece.length == 0 || piece.at[0] != '>')
        fail(file, "not FASTA, its first byte is not >");
}

static void expect_one(const reader *r, const char *file) {
    if (r->wanted == NULL && r->sequences > 1)
        say("fearnavult: %s: has %" PRIu64 " sequences, choose one with --name", file, r->sequences);
    else if (r->wanted != NULL && r->found != 1)
        say("fearnavult: %s: has %s %s", file, r->found == 0 ? "no sequence" : "two sequences", r->wanted);
    else
        return;
    exit(2);
}

void read_reference(reference *r, const char *file, const char *wanted) {
    static uint8_t piece[PIECE];
    reader reading = {.kept = r, .wanted = wanted};
    int opened = open(file, O_RDONLY | O_CLOEXEC);
    if (opened < 0)
        fail(file, strerror(errno));
    size_t length = read_piece(opened, file, piece, PIECE);
    expect_fasta(file, (text){piece, length});
    for (; length > 0; length = read_piece(opened, file, piece, PIECE)) take_piece(&reading, (text){piece, length});
    if (close(opened) != 0)
        fail(file, strerror(errno));
    end_line(&reading);
    expect_one(&reading, file);
    reserve(&r->residues, 0);
    free(reading.name.at);
}

void identify_reference(reference *r) {
    fv_written w = fv_sequence_identifier(r->residues.at, r->residues.length, r->identifier, sizeof r->identifier, 0);
    if (w.refusal == FV_FOREIGN_INPUT) {
        say("refused 4: byte %" PRIu64 " of the reference is no residue", w.value);
        exit(1);
    }
    expect_accepted(w.refusal, w.value);
    r->digest = r->identifier + FV_IDENTIFIER_LENGTH - FV_DIGEST_LENGTH;
}

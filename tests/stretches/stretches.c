/*
 * Where the stretches lie that reading hands back. Crate stretch_writer tells where each starts, and its length. Ends
 * with status 1 at the first stretch that lies elsewhere: that of an accepted text lies in it as document 01 says, that
 * of a refused text is the empty one at its start.
 */
#include <stddef.h>
#include <stdint.h>
#include <stdio.h>
#include <stdlib.h>
#include <string.h>

#define D "zR7HujP8jYfpROv-hBLZMHuR_5P4Zo0q"
#define LOCATION(end, start) "{\"interval\":{\"end\":" end ",\"start\":" start ",\"type\":\"SimpleInterval\"}," \
                             "\"sequence_id\":\"" D "\",\"type\":\"SequenceLocation\"}"
#define ALLELE(letters) "{\"location\":\"" D "\",\"state\":{\"sequence\":\"" letters "\",\"type\":\"SequenceState\"}," \
                        "\"type\":\"Allele\"}"

/* A stretch: where it starts, and how many bytes it has. */
struct handed {
    const uint8_t *start;
    size_t length;
};

void handed_digest(const uint8_t *text, size_t text_len, struct handed *to);
void handed_location(const uint8_t *text, size_t text_len, struct handed *to);
void handed_sequence(const uint8_t *text, size_t text_len, struct handed *to);

/* A text, and the stretches of it that are handed back; all empty at 0 for a text that is refused. */
struct text {
    const char *bytes;
    size_t digest, digest_len, location, location_len, sequence, sequence_len;
};

static const struct text accepted[] = {
    {LOCATION("0", "0"), 71, 32, 0, 0, 0, 0},
    {LOCATION("10", "1"), 72, 32, 0, 0, 0, 0},
    {LOCATION("1000000000", "999999999"), 88, 32, 0, 0, 0, 0},
    {ALLELE(""), 0, 0, 13, 32, 68, 0},
    {ALLELE("C"), 0, 0, 13, 32, 68, 1},
    {ALLELE("CAGCAGCAGCAG"), 0, 0, 13, 32, 68, 12},
};

/* The text lies here, with bytes before and behind it. */
static uint8_t room[400];
static int met;

static void expect(void (*handed)(const uint8_t *, size_t, struct handed *), size_t length, size_t at, size_t count) {
    const uint8_t *text = room + 101;
    /* No stretch of the text: each of the two has to be told. */
    struct handed told = {NULL, sizeof room};
    handed(text, length, &told);
    if (told.start != text + at || told.length != count) {
        printf("stretches: FAILED: %lu bytes at %ld for %lu at %lu of %.*s\n", (unsigned long)told.length,
               (long)(told.start - text), (unsigned long)count, (unsigned long)at, (int)length, (const char *)text);
        exit(1);
    }
    met++;
}

static void expect_refused(size_t length) {
    expect(handed_digest, length, 0, 0);
    expect(handed_location, length, 0, 0);
    expect(handed_sequence, length, 0, 0);
}

int main(void) {
    for (size_t i = 0; i < sizeof accepted / sizeof accepted[0]; i++) {
        const struct text *t = &accepted[i];
        size_t length = strlen(t->bytes);
        uint8_t *text = room + 101;
        memset(room, '}', sizeof room);
        memcpy(text, t->bytes, length);
        expect(handed_digest, length, t->digest, t->digest_len);
        expect(handed_location, length, t->location, t->location_len);
        expect(handed_sequence, length, t->sequence, t->sequence_len);
        /* Cut anywhere, with a byte behind it, and with a byte that no text has in the place of each. */
        for (size_t cut = 0; cut < length; cut++) {
            expect_refused(cut);
        }
        expect_refused(length + 1);
        for (size_t at = 0; at < length; at++) {
            text[at] = '!';
            expect_refused(length);
            text[at] = (uint8_t)t->bytes[at];
        }
    }
    printf("stretches: ok, %d stretches, each where it is to lie\n", met);
    return 0;
}

/*
 * The lines of the one table that bench/run prints. The rows of a comparison are timed turn by turn, and the
 * best of each is kept. The time is the processor's, so that other programs disturb it less. A ratio is our
 * time divided by that of what it is measured against: 1.00 is as fast, less is faster.
 */
#include <stddef.h>
#include <stdint.h>

enum { TURNS = 5 };

typedef struct {
    const char *name;
    void (*work)(void);
    double best; /* nanoseconds */
} row;

#define COUNT(rows) (int)(sizeof(rows) / sizeof *(rows))

/* Prints the head of the table. */
void head(void);

/* Times the rows. */
void measure(row *rows, int count);

/* Prints a line: our row against another, whose times are known. */
void line(const char *what, const row *ours, const row *other);

/* Times the rows and prints the first, ours, against each of the others. */
void ours_first(const char *what, row *rows, int count);

/* Times the rows and prints each of the others, ours, against the first. */
void ours_last(const char *what, row *rows, int count);

/* A time is worth nothing where the work was not the work that its row names: ends the program there. */
void hold(int as_expected);

/* Fills a text with random residues. */
void fill(uint8_t *text, size_t length);

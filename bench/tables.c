#include "tables.h"

/* Of the C library, whose headers are not everywhere. */
struct timespec {
    long seconds, nanoseconds;
};
int clock_gettime(int clock, struct timespec *now);
int printf(const char *format, ...);
_Noreturn void exit(int status);

enum { CLOCK_PROCESS_CPUTIME_ID = 2 };

static double now(void) {
    struct timespec t;
    clock_gettime(CLOCK_PROCESS_CPUTIME_ID, &t);
    return (double)t.seconds * 1e9 + (double)t.nanoseconds;
}

void hold(int as_expected) {
    if (as_expected) return;
    printf("bench: an answer is not the one expected\n");
    exit(1);
}

void head(void) {
    printf("| what | ours | against | ratio |\n");
    printf("|---|---|---|---|\n");
}

void line(const char *what, const row *ours, const row *other) {
    printf("| %s | %s | %s | %.2f |\n", what, ours->name, other->name, ours->best / other->best);
}

void measure(row *rows, int count) {
    for (int turn = 0; turn < TURNS; turn++)
        for (int i = 0; i < count; i++) {
            double began = now();
            rows[i].work();
            double took = now() - began;
            if (turn == 0 || took < rows[i].best) rows[i].best = took;
        }
}

void ours_first(const char *what, row *rows, int count) {
    measure(rows, count);
    for (int i = 1; i < count; i++) line(what, &rows[0], &rows[i]);
}

void ours_last(const char *what, row *rows, int count) {
    measure(rows, count);
    for (int i = 1; i < count; i++) line(what, &rows[i], &rows[0]);
}

void fill(uint8_t *text, size_t length) {
    uint32_t x = 1;
    for (size_t i = 0; i < length; i++) {
        x = x * 1664525 + 1013904223;
        text[i] = (uint8_t)("ACGT"[x >> 30]);
    }
}

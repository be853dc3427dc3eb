/*
 * Linked into the program fearnavult, takes the place of the calls by which it changes files, and notes each that
 * succeeds in the file that POWER_NOTES names: how much stood on standard output before it, then what it did.
 */
#include <stdarg.h>
#include <stdio.h>
#include <stdlib.h>
#include <sys/stat.h>
#include <unistd.h>

/* Linux on x86-64. */
enum { WRITE = 1, OPEN = 2, FSYNC = 74, RENAME = 82, UNLINK = 87 };
enum { WRITING = 1, CREATING = 0100 };
long syscall(long number, ...);

/* No write takes more, so that a save has several. */
enum { PIECE = 200 };

static int notes;

/* Standard output holds nothing back, so that an answer is there as soon as it is given. */
__attribute__((constructor)) static void begin(void) {
    notes = (int)syscall(OPEN, getenv("POWER_NOTES"), WRITING | CREATING, 0666);
    setbuf(stdout, NULL);
}

static long printed(void) {
    struct stat status;
    return fstat(STDOUT_FILENO, &status) == 0 ? status.st_size : -1;
}

int open(const char *name, int how, ...) {
    va_list rest;
    va_start(rest, how);
    unsigned mode = (how & CREATING) != 0 ? va_arg(rest, unsigned) : 0;
    va_end(rest);
    long before = printed(), file = syscall(OPEN, name, how, mode);
    if (file >= 0)
        dprintf(notes, "%ld open %ld %d %s\n", before, file, how, name);
    return (int)file;
}

ssize_t write(int file, const void *from, size_t count) {
    long before = printed(), done = syscall(WRITE, file, from, count < PIECE ? count : PIECE);
    if (done >= 0) {
        dprintf(notes, "%ld write %d %ld\n", before, file, done);
        syscall(WRITE, notes, from, done);
    }
    return done;
}

int fsync(int file) {
    long before = printed(), done = syscall(FSYNC, file);
    if (done == 0)
        dprintf(notes, "%ld fsync %d\n", before, file);
    return (int)done;
}

int rename(const char *from, const char *to) {
    long before = printed(), done = syscall(RENAME, from, to);
    if (done == 0)
        dprintf(notes, "%ld rename %s %s\n", before, from, to);
    return (int)done;
}

int unlink(const char *name) {
    long before = printed(), done = syscall(UNLINK, name);
    if (done == 0)
        dprintf(notes, "%ld unlink %s\n", before, name);
    return (int)done;
}

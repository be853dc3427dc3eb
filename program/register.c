/*
 * The file of a register: read whole, and saved whole beside itself and then renamed, so that whoever reads it sees the
 * old image or the new one. Whoever changes it holds a lock on the file NAME.lock.
 */
#include "program.h"

#include <errno.h>
#include <fcntl.h>
#include <stdio.h>
#include <stdlib.h>
#include <string.h>
#include <sys/stat.h>
#include <unistd.h>

enum { PIECE = 1 << 16, MODE_BITS = 07777 };

static char *joined(const char *path, const char *ending) {
    buffer b = {0};
    append_words(&b, path);
    append(&b, ending, strlen(ending) + 1);
    return (char *)b.at;
}

/* The path of the file itself: rename would put a new file in the place of a link. */
static char *path_of(const char *name) {
    char first;
    char *path = readlink(name, &first, 1) < 0 ? NULL : realpath(name, NULL);
    return path != NULL ? path : joined(name, "");
}

/* Held until the program ends. */
static void lock_register(const register_file *r) {
    struct flock whole = {.l_type = F_WRLCK, .l_whence = SEEK_SET};
    char *path = joined(r->path, ".lock");
    int file = open(path, O_RDWR | O_CREAT | O_CLOEXEC, 0666);
    if (file < 0)
        fail(path, strerror(errno));
    if (fcntl(file, F_SETLK, &whole) != 0) {
        bool held = errno == EACCES || errno == EAGAIN;
        fail(held ? r->name : path, held ? "another fearnavult is changing it" : strerror(errno));
    }
    free(path);
}

static bool exists(const register_file *r, struct stat *status) {
    if (stat(r->path, status) == 0)
        return true;
    if (errno != ENOENT)
        fail(r->name, strerror(errno));
    return false;
}

static void load(register_file *r) {
    struct stat status;
    size_t length = PIECE;
    int file = open(r->path, O_RDONLY | O_CLOEXEC);
    if (file < 0 || fstat(file, &status) != 0)
        fail(r->name, strerror(errno));
    r->mode = status.st_mode & MODE_BITS;
    while (length == PIECE) {
        reserve(&r->image, PIECE);
        length = read_piece(file, r->name, r->image.at + r->image.length, PIECE);
        r->image.length += length;
    }
    if (close(file) != 0)
        fail(r->name, strerror(errno));
    fv_outcome o = fv_check(r->image.at, r->image.length);
    expect_accepted(o.refusal, o.value);
    append(&r->saved, r->image.at, r->image.length);
}

void open_register(register_file *r, const char *name) {
    *r = (register_file){.name = name, .path = path_of(name)};
    load(r);
}

/* A name that is mistyped is told before there is a lock, which would stay. */
void open_register_to_change(register_file *r, const char *name) {
    struct stat status;
    *r = (register_file){.name = name, .path = path_of(name), .replaces = true};
    if (!exists(r, &status))
        fail(name, strerror(ENOENT));
    if (S_ISDIR(status.st_mode))
        fail(name, strerror(EISDIR));
    lock_register(r);
    load(r);
}

/* With force the old file has to be a register, so that no other file is lost by a slip. */
void open_register_to_blank(register_file *r, const char *name, bool force) {
    struct stat status;
    *r = (register_file){.name = name, .path = path_of(name)};
    lock_register(r);
    r->replaces = exists(r, &status);
    if (r->replaces && !force)
        fail(name, "exists, --force makes it blank again");
    if (r->replaces)
        load(r);
}

static bool write_all(int file, const buffer *b) {
    size_t written = 0;
    while (written < b->length) {
        ssize_t count = write(file, b->at + written, b->length - written);
        if (count < 0)
            return false;
        written += (size_t)count;
    }
    return true;
}

static char *folder_of(const char *path) {
    char *folder = joined(path, ""), *slash = strrchr(folder, '/');
    strcpy(slash == NULL ? folder : slash + 1, slash == NULL ? "." : "");
    return folder;
}

static bool write_new(const register_file *r, const char *path) {
    int file = open(path, O_WRONLY | O_CREAT | O_TRUNC | O_NOFOLLOW | O_CLOEXEC, 0666);
    return file >= 0 && (!r->replaces || fchmod(file, (mode_t)r->mode) == 0) && write_all(file, &r->image) &&
           fsync(file) == 0 && close(file) == 0;
}

/*
 * A file that has the image already stays. The folder is opened first, so that one that can't be is told before
 * anything is changed.
 */
void save_register(register_file *r) {
    if (r->replaces && same(bytes_of(&r->saved), bytes_of(&r->image)))
        return;
    char *made = joined(r->path, ".new"), *folder = folder_of(r->path);
    int opened = open(folder, O_RDONLY | O_DIRECTORY | O_CLOEXEC);
    if (opened < 0)
        fail(folder, strerror(errno));
    if (!write_new(r, made) || rename(made, r->path) != 0) {
        int why = errno;
        unlink(made);
        fail(made, strerror(why));
    }
    /* EINVAL: a file system that has no such thing. */
    if ((fsync(opened) != 0 && errno != EINVAL) || close(opened) != 0)
        fail(folder, strerror(errno));
    r->saved.length = 0;
    append(&r->saved, r->image.at, r->image.length);
    free(made);
    free(folder);
}

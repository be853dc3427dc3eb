/*
 * Makes the calls that it reads on standard input and writes the answers to standard output.
 *
 * A request is one byte, the call's code; then its numbers, in the order of its parameters; then its
 * slices likewise, each a length and that many bytes. Every number and length is 64 bits, little-endian.
 * So that limits can be tried at full size, a slice that is only read may be said in other ways:
 *   where UNTOUCHED is added to its length no bytes follow, and it is that many zero bytes of memory
 *   that nothing has touched;
 *   where REPEATED is added, the length is that of its head. How many copies of one byte come behind the
 *   head, the length of a tail behind them, that byte, the head and the tail follow.
 *
 * An answer is the count of the numbers answered; these numbers; a harm; then each lent slice that
 * the call may write, whole. The harm is 0, or the slice (from 1) with a changed byte where the call
 * may write none: in the guards on both sides of it, or in a slice that it may only read. Where there is
 * no memory for a repeated slice the call is not made, and the whole answer is NO_MEMORY for the count.
 *
 * A call is added by a row in `calls` and a case in the function that the row names.
 */
#include <stddef.h>
#include <stdint.h>

#include "fearnavult.h"

/* Of the C library, whose headers are not everywhere. */
long read(int file, void *to, size_t count);
long write(int file, const void *from, size_t count);
void *mmap(void *at, size_t count, int access, int flags, int file, long offset);
int munmap(void *at, size_t count);
int mprotect(void *at, size_t count, int access);
void *memcpy(void *to, const void *from, size_t count);
int memcmp(const void *one, const void *other, size_t count);
_Noreturn void _exit(int status);

enum { PROT_NONE = 0, PROT_READ = 1, PROT_WRITE = 2 };
enum { MAP_PRIVATE = 2, MAP_ANONYMOUS = 0x20, MAP_NORESERVE = 0x4000 };

enum { CHUNK = 1 << 20, PAGE = 4096, GUARD = 64, ROOM = 1 << 28 };
enum { NUMBERS = 4, SLICES = 4, ANSWERS = 10, PARTS = 3 };
#define UNTOUCHED (UINT64_C(1) << 63)
#define REPEATED (UINT64_C(1) << 62)
#define NO_MEMORY UINT64_MAX

typedef struct {
    uint8_t *at; /* null where there was no memory for it */
    size_t length;
    size_t offset; /* of its first byte in `lent` and `kept`, where it stands there */
    uint8_t *area; /* else its own pages and one on either side of them */
    size_t area_size;
} slice;

/* A slice as an argument. */
#define LENT(s) (s).at, (s).length

static _Noreturn void stop(const char *why) {
    size_t length = 0;
    while (why[length] != 0) length++;
    write(2, "driver: ", 8);
    write(2, why, length);
    write(2, "\n", 1);
    _exit(2);
}

static int written(fv_written w, uint64_t *a) {
    a[0] = w.refusal, a[1] = w.value, a[2] = w.length;
    return 3;
}

static int outcome(fv_outcome o, uint64_t *a) {
    a[0] = o.refusal, a[1] = o.value;
    return 2;
}

static int form(fv_form f, uint64_t *a) {
    a[0] = f.refusal, a[1] = f.value, a[2] = f.kind, a[3] = f.start, a[4] = f.end, a[5] = f.length;
    a[6] = f.left_widened, a[7] = f.left_shrunk, a[8] = f.right_widened, a[9] = f.right_shrunk;
    return 10;
}

static int identified(fv_identified i, uint64_t *a) {
    a[0] = i.refusal, a[1] = i.value, a[2] = i.length;
    a[3] = i.left_widened, a[4] = i.left_shrunk, a[5] = i.right_widened, a[6] = i.right_shrunk;
    return 7;
}

/* Each of these makes a call and answers how many numbers it left in a. */
static int make_form_or_text(char code, const uint64_t *n, const slice *s, uint64_t *a) {
    switch (code) {
    case 's':
        return written(fv_sequence_identifier(LENT(s[0]), LENT(s[1]), n[0]), a);
    case 'n':
        return form(fv_normal_form(LENT(s[0]), n[0], n[1], LENT(s[1]), LENT(s[2]), n[2]), a);
    case 'L':
        return written(fv_location_text(n[0], n[1], n[2], LENT(s[0]), LENT(s[1]), n[3]), a);
    case 'l':
        return written(fv_location_identifier(n[0], n[1], n[2], LENT(s[0]), LENT(s[1]), n[3]), a);
    case 'A':
        return written(fv_allele_text(LENT(s[0]), n[0], n[1], LENT(s[1]), LENT(s[2]), LENT(s[3]), n[2]), a);
    case 'a':
        return identified(fv_allele_identifier(LENT(s[0]), n[0], n[1], LENT(s[1]), LENT(s[2]), LENT(s[3]), n[2]), a);
    }
    stop("no such form or text");
}

static int make_reading(char code, const uint64_t *n, const slice *s, uint64_t *a) {
    (void)n;
    switch (code) {
    case 'R': {
        fv_location l = fv_read_location(LENT(s[0]));
        a[0] = l.refusal, a[1] = l.value, a[2] = l.start, a[3] = l.end, a[4] = l.digest;
        return 5;
    }
    case 'r': {
        fv_allele l = fv_read_allele(LENT(s[0]));
        a[0] = l.refusal, a[1] = l.value, a[2] = l.location, a[3] = l.sequence, a[4] = l.length;
        return 5;
    }
    }
    stop("no such reading");
}

static int make_vcf(char code, const uint64_t *n, const slice *s, uint64_t *a) {
    switch (code) {
    case 'c': {
        fv_counted c = fv_vcf_count(LENT(s[0]), LENT(s[1]));
        a[0] = c.refusal, a[1] = c.value, a[2] = c.count;
        return 3;
    }
    case 'v':
        return form(fv_vcf_form(LENT(s[0]), LENT(s[1]), n[0], LENT(s[2]), n[1]), a);
    }
    stop("no such call on a VCF line");
}

static int make_register(char code, const uint64_t *n, const slice *s, uint64_t *a) {
    switch (code) {
    case 'b':
        return outcome(fv_blank(LENT(s[0]), n[0], LENT(s[1]), n[1], n[2], n[3]), a);
    case 'e': {
        fv_entered e = fv_entry(LENT(s[0]), LENT(s[1]), LENT(s[2]), n[0], n[1], LENT(s[3]));
        a[0] = e.refusal, a[1] = e.value, a[2] = e.answer, a[3] = e.number;
        a[4] = e.left_widened, a[5] = e.left_shrunk, a[6] = e.right_widened, a[7] = e.right_shrunk;
        return 8;
    }
    case 'w':
        return outcome(fv_withdraw(LENT(s[0]), n[0]), a);
    case 'u': {
        fv_undone u = fv_undo(LENT(s[0]));
        a[0] = u.refusal, a[1] = u.value, a[2] = u.number;
        return 3;
    }
    case 'S':
        return outcome(fv_seal(LENT(s[0])), a);
    case 'C':
        return outcome(fv_check(LENT(s[0])), a);
    case 'N': {
        fv_record r = fv_read_record(LENT(s[0]), n[0]);
        a[0] = r.refusal, a[1] = r.value, a[2] = r.start, a[3] = r.end, a[4] = r.status;
        a[5] = r.offset, a[6] = r.length;
        return 7;
    }
    }
    stop("no such call of the register");
}

_Static_assert(sizeof(fv_running) == 200, "a running digest has no gaps");

/* A running digest that is lent as a request's first slice: a guard behind the start of `lent`, so aligned. */
static fv_running *running(const slice *s) {
    if (s->length != sizeof(fv_running) || (uintptr_t)s->at % _Alignof(fv_running) != 0) stop("no running digest");
    return (fv_running *)s->at;
}

static void begin(fv_running *state) { *state = fv_running_begin(); }

/* A reference in three parts, cut at n[0] and n[1]: what finish answers, then what feed does to each part. */
static int in_parts(const uint64_t *n, const slice *reference, const slice *out, uint64_t *a) {
    const uint64_t cuts[PARTS + 1] = {0, n[0], n[1], reference->length};
    fv_running state;
    begin(&state);
    for (int i = 0; i < PARTS; i++) {
        if (cuts[i] > cuts[i + 1]) stop("parts out of order");
        outcome(fv_running_feed(&state, reference->at + cuts[i], cuts[i + 1] - cuts[i]), a + 3 + 2 * i);
    }
    return written(fv_running_finish(&state, LENT(*out), n[2]), a) + 2 * PARTS;
}

static int make_running(char code, const uint64_t *n, const slice *s, uint64_t *a) {
    switch (code) {
    case 'B':
        begin(running(&s[0]));
        return 0;
    case 'f':
        return outcome(fv_running_feed(running(&s[0]), LENT(s[1])), a);
    case 'F':
        return written(fv_running_finish(running(&s[0]), LENT(s[1]), n[0]), a);
    case 'P':
        return in_parts(n, &s[0], &s[1], a);
    }
    stop("no such call of the running digest");
}

typedef struct {
    char code;
    int numbers;
    const char *slices; /* one letter for each: r only read, w written */
    int (*make)(char code, const uint64_t *n, const slice *s, uint64_t *a);
} call;

static const call calls[] = {
    {'s', 1, "rw", make_form_or_text},   /* fv_sequence_identifier: place; reference, out */
    {'n', 3, "rrw", make_form_or_text},  /* fv_normal_form: start, end, place; reference, replacement, out */
    {'L', 4, "rw", make_form_or_text},   /* fv_location_text: reference_length, start, end, place; digest, out */
    {'l', 4, "rw", make_form_or_text},   /* fv_location_identifier: likewise */
    {'A', 3, "rrrw", make_form_or_text}, /* fv_allele_text: start, end, place; reference, replacement, digest, out */
    {'a', 3, "rrrw", make_form_or_text}, /* fv_allele_identifier: likewise */
    {'R', 0, "r", make_reading},         /* fv_read_location: text */
    {'r', 0, "r", make_reading},         /* fv_read_allele: text */
    {'c', 0, "rr", make_vcf},            /* fv_vcf_count: reference, line */
    {'v', 2, "rrw", make_vcf},           /* fv_vcf_form: alternate, place; reference, line, out */
    {'b', 4, "wr", make_register},       /* fv_blank: reference_length, records, journal, pool; image, digest */
    {'e', 2, "wrrr", make_register},     /* fv_entry: start, end; image, digest, reference, replacement */
    {'w', 1, "w", make_register},        /* fv_withdraw: number; image */
    {'u', 0, "w", make_register},        /* fv_undo: image */
    {'S', 0, "w", make_register},        /* fv_seal: image */
    {'C', 0, "r", make_register},        /* fv_check: image */
    {'N', 1, "r", make_register},        /* fv_read_record: number; image */
    {'B', 0, "w", make_running},         /* fv_running_begin: state */
    {'f', 0, "wr", make_running},        /* fv_running_feed: state, part */
    {'F', 1, "rw", make_running},        /* fv_running_finish: place; state, out */
    {'P', 3, "rw", make_running},        /* all three, on a reference in parts: two cuts, place; reference, out */
};

static const call *find(char code) {
    for (size_t i = 0; i < sizeof calls / sizeof *calls; i++)
        if (calls[i].code == code) return &calls[i];
    stop("no such call");
}

static uint8_t input[CHUNK], output[CHUNK];
static size_t input_at, input_end, output_end;

static void flush(void) {
    for (size_t done = 0; done < output_end;) {
        long n = write(1, output + done, output_end - done);
        if (n <= 0) stop("cannot write");
        done += (size_t)n;
    }
    output_end = 0;
}

static void put(const void *from, size_t count) {
    const uint8_t *bytes = from;
    while (count > 0) {
        if (output_end == CHUNK) flush();
        size_t n = count < CHUNK - output_end ? count : CHUNK - output_end;
        memcpy(output + output_end, bytes, n);
        output_end += n, bytes += n, count -= n;
    }
}

/* Whether there is more input. */
static int more(void) {
    if (input_at < input_end) return 1;
    long n = read(0, input, CHUNK);
    if (n < 0) stop("cannot read");
    input_at = 0, input_end = (size_t)n;
    return n > 0;
}

static void take(void *to, size_t count) {
    uint8_t *bytes = to;
    while (count > 0) {
        if (!more()) stop("a request is cut short");
        size_t n = count < input_end - input_at ? count : input_end - input_at;
        memcpy(bytes, input + input_at, n);
        input_at += n, bytes += n, count -= n;
    }
}

static uint64_t take_number(void) {
    uint64_t x;
    take(&x, sizeof x); /* x86-64 is little-endian */
    return x;
}

/* Memory of zero bytes, or null. */
static uint8_t *map(size_t count, int access, int flags) {
    void *at = mmap(0, count, access, MAP_PRIVATE | MAP_ANONYMOUS | flags, -1, 0);
    return at == (void *)-1 ? 0 : at;
}

/* The slices of a request stand one after another in `lent`, guards between them, and the same bytes
   in `kept`, to tell afterwards what has changed. */
static uint8_t *lent, *kept;
static size_t room_end;

static void put_guard(void) {
    for (int i = 0; i < GUARD; i++) kept[room_end++] = (uint8_t)(0xC3 + 37 * i);
}

static void need_room(uint64_t length) {
    if (length > ROOM || room_end + length + 2 * GUARD > ROOM) stop("a request is too large");
}

static slice take_sent(uint64_t length) {
    need_room(length);
    put_guard();
    slice s = {.at = lent + room_end, .length = length, .offset = room_end};
    take(kept + s.offset, s.length);
    room_end += s.length;
    put_guard();
    return s;
}

/* A slice on pages of its own, up to the end of the last; the pages beside them may not even be read. */
static slice apart(size_t length, int access, int flags) {
    size_t pages = (length + PAGE - 1) / PAGE * PAGE;
    slice s = {.length = length, .area_size = pages + 2 * PAGE};
    s.area = map(s.area_size, PROT_NONE, flags);
    if (s.area != 0 && mprotect(s.area + PAGE, pages, access) == 0) s.at = s.area + PAGE + pages - length;
    return s;
}

static slice untouched(size_t length) {
    slice s = apart(length, PROT_READ, MAP_NORESERVE);
    if (s.at == 0) stop("cannot map memory");
    return s;
}

static slice take_repeated(uint64_t head) {
    uint64_t copies = take_number(), tail = take_number();
    uint8_t byte, *ends = kept + room_end; /* where the next slice will stand, so only for now */
    take(&byte, 1);
    need_room(head), need_room(tail), need_room(head + tail);
    take(ends, head + tail);
    slice s = apart(head + copies + tail, PROT_READ | PROT_WRITE, 0);
    if (s.at == 0) return s;
    memcpy(s.at, ends, head);
    for (uint64_t i = 0; i < copies; i++) s.at[head + i] = byte; /* an emulator's memset is far slower */
    memcpy(s.at + head + copies, ends + head, tail);
    if (mprotect(s.area + PAGE, s.area_size - 2 * PAGE, PROT_READ) != 0) stop("cannot protect memory");
    return s;
}

static slice take_slice(void) {
    uint64_t length = take_number();
    if (length & UNTOUCHED) return untouched(length & ~UNTOUCHED);
    if (length & REPEATED) return take_repeated(length & ~REPEATED);
    return take_sent(length);
}

static int changed(size_t from, size_t count) { return memcmp(lent + from, kept + from, count) != 0; }

/* A slice that stands apart cannot be written, nor what is beside it. */
static int harmed(const slice *s, char kind) {
    if (s->area != 0) return 0;
    return changed(s->offset - GUARD, GUARD) || changed(s->offset + s->length, GUARD) ||
           (kind == 'r' && changed(s->offset, s->length));
}

static void make_and_answer(const call *c, const uint64_t *n, const slice *s) {
    uint64_t a[ANSWERS], harm = 0;
    memcpy(lent, kept, room_end);
    uint64_t count = (uint64_t)c->make(c->code, n, s, a);
    for (int i = 0; harm == 0 && c->slices[i] != 0; i++)
        if (harmed(&s[i], c->slices[i])) harm = (uint64_t)i + 1;
    put(&count, sizeof count);
    put(a, count * sizeof *a);
    put(&harm, sizeof harm);
    for (int i = 0; c->slices[i] != 0; i++)
        if (c->slices[i] == 'w') put(s[i].at, s[i].length);
}

static void answer(void) {
    char code;
    uint64_t n[NUMBERS], no_memory = NO_MEMORY;
    slice s[SLICES];
    int missing = 0;

    take(&code, 1);
    const call *c = find(code);
    for (int i = 0; i < c->numbers; i++) n[i] = take_number();
    room_end = 0;
    for (int i = 0; c->slices[i] != 0; i++) {
        s[i] = take_slice();
        missing += s[i].at == 0;
    }
    if (missing)
        put(&no_memory, sizeof no_memory);
    else
        make_and_answer(c, n, s);
    for (int i = 0; c->slices[i] != 0; i++)
        if (s[i].area != 0) munmap(s[i].area, s[i].area_size);
    flush(); /* at each answer, so that the first call unanswered is the one that the driver died of */
}

int main(void) {
    lent = map(ROOM, PROT_READ | PROT_WRITE, MAP_NORESERVE);
    kept = map(ROOM, PROT_READ | PROT_WRITE, MAP_NORESERVE);
    if (lent == 0 || kept == 0) stop("cannot map memory");
    while (more()) answer();
    return 0;
}

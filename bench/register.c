/*
 * The register's calls on an image whose pool is full, or would be with the last number: that number is
 * entered and withdrawn. Each call tests the whole image first, so they are measured against one reading of it.
 */
#include "register.h"

#include "fearnavult.h"
#include "plain.h"
#include "tables.h"

/* Of the C library, whose headers are not everywhere. */
void *memcpy(void *to, const void *from, size_t count);
void *memset(void *at, int byte, size_t count);

enum { MOST = 10 * 1000, POOL = 10 * 1000 * 1000, HEADER = 76, RECORD = 20, ENTRY = 4, CALLS = 10 };
enum { NEW = 1, AGAIN = 2, KNOWN = 3 };
enum { ISSUED_AT = 8, JOURNALLED_AT = 20, USED_AT = 32, STATUS = 16 };

/* How many numbers the register has, and the last of them: an insertion of so many residues at this place. */
static size_t numbers, last_length;
static uint64_t last_start;
static uint8_t image[HEADER + (RECORD + ENTRY) * MOST + POOL], reference[MOST + 1];
static uint8_t last_residues[POOL / MOST];
static const uint8_t reference_digest[] = "zR7HujP8jYfpROv-hBLZMHuR_5P4Zo0q";
static volatile uint64_t seen;

static uint8_t *record(size_t number) { return image + HEADER + RECORD * (number - 1); }
static uint8_t *pool(void) { return image + HEADER + (RECORD + ENTRY) * numbers; }
static size_t image_length(void) { return HEADER + (RECORD + ENTRY) * numbers + POOL; }

static void put(uint8_t *at, uint64_t value) {
    for (int i = 0; i < 4; i++) at[i] = (uint8_t)(value >> 8 * i);
}

static void put_record(size_t number, uint64_t start, size_t offset, size_t length) {
    const uint64_t fields[] = {start, start, offset, length, 1};
    for (size_t i = 0; i < 5; i++) put(record(number) + 4 * i, fields[i]);
}

static void begin(size_t count) {
    numbers = count;
    hold(fv_blank(image, sizeof image, sizeof reference, reference_digest, 32, count, count, POOL).refusal == 0);
    fill(pool(), POOL);
}

/* The last replacement is lent beside the image, not in it. */
static void keep_last(void) { memcpy(last_residues, pool() + POOL - last_length, last_length); }

/* Insertions at one place after another; the last has 12 residues, and the others have the rest of the pool. */
static void lay_apart(size_t count) {
    begin(count);
    last_length = 12, last_start = count;
    size_t each = (POOL - last_length) / (count - 1), offset = 0;
    for (size_t i = 1; i < count; i++, offset += each)
        put_record(i, i, offset, i + 1 < count ? each : POOL - last_length - offset);
    put_record(count, last_start, POOL - last_length, last_length);
    memcpy(pool() + POOL - last_length, "ACGACGACGACG", last_length);
    keep_last();
}

/* Insertions at one place, as long as each other and alike but for the last residues: a number in base 3. */
static void lay_alike(size_t count) {
    begin(count);
    last_length = POOL / count, last_start = 1;
    memset(pool(), 'A', POOL);
    for (size_t i = 1; i <= count; i++) {
        uint8_t *end = pool() + i * last_length;
        put_record(i, last_start, (i - 1) * last_length, last_length);
        for (size_t rest = i; rest > 0; rest /= 3) *--end = (uint8_t)("ACG"[rest % 3]);
    }
    keep_last();
}

/* What the calls change goes back to what it was: a few numbers, against megabytes that each call reads. */
static void reset(size_t issued, size_t used, uint64_t status) {
    put(image + ISSUED_AT, issued);
    put(image + JOURNALLED_AT, 0);
    put(image + USED_AT, used);
    put(record(numbers) + STATUS, status);
}

static void enter(uint64_t answer) {
    fv_entered e = fv_entry(image, image_length(), reference_digest, 32, reference, sizeof reference,
                            last_start, last_start, last_residues, last_length);
    hold(e.refusal == 0 && e.answer == answer && e.number == numbers);
}

static void read_image(void) {
    for (int i = 0; i < CALLS; i++) seen = plain_read(image, image_length());
}
static void test_residues(void) {
    for (int i = 0; i < CALLS; i++) hold(plain_residues(pool(), POOL) == POOL);
}
static void test_image(void) {
    for (int i = 0; i < CALLS; i++) {
        reset(numbers, POOL, 1);
        hold(fv_seal(image, image_length()).refusal == 0);
    }
}
static void test_with(uint8_t each_thousandth) {
    for (size_t i = 0; i < POOL; i += 1000) pool()[i] = each_thousandth;
    test_image();
}
static void test_letters(void) { test_with('A'); }
static void test_stops(void) { test_with('*'); }
static void enter_known(void) {
    for (int i = 0; i < CALLS; i++) reset(numbers, POOL, 1), enter(KNOWN);
}
static void enter_again(void) {
    for (int i = 0; i < CALLS; i++) reset(numbers, POOL, 0), enter(AGAIN);
}
static void enter_new(void) {
    for (int i = 0; i < CALLS; i++) reset(numbers - 1, POOL - last_length, 0), enter(NEW);
}
static void withdraw_last(void) {
    for (int i = 0; i < CALLS; i++) {
        reset(numbers, POOL, 1);
        hold(fv_withdraw(image, image_length(), numbers).refusal == 0);
    }
}

static void calls_on(const char *what) {
    row rows[] = {{"plain C read of the image", read_image, 0},
                  {"plain C residue test of the pool", test_residues, 0},
                  {"`fv_seal`, nothing to seal", test_image, 0},
                  {"`fv_entry`, known", enter_known, 0},
                  {"`fv_entry`, again", enter_again, 0},
                  {"`fv_entry`, new", enter_new, 0},
                  {"`fv_withdraw`", withdraw_last, 0}};
    measure(rows, COUNT(rows));
    for (int i = 2; i < COUNT(rows); i++) line(what, &rows[i], &rows[0]);
    line(what, &rows[2], &rows[1]);
}

void register_lines(void) {
    memset(reference, 'T', sizeof reference);
    lay_apart(10);
    calls_on("10 numbers, 10 MB of residues");
    lay_apart(1000);
    calls_on("1,000 numbers, 10 MB of residues");
    lay_apart(10000);
    calls_on("10,000 numbers, 10 MB of residues");
    row residues[] = {{"`fv_seal`, letters alone", test_letters, 0},
                      {"`fv_seal`, a stop in each thousand", test_stops, 0}};
    ours_last("10,000 numbers, 10 MB of residues", residues, COUNT(residues));
    lay_alike(10000);
    calls_on("10,000 numbers, alike but for their last residues");
}

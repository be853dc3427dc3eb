/* As much as the programs here use, where the compiler has no headers of a C library: Linux on x86-64. */
#include <sys/types.h>
struct stat {
    unsigned long st_dev, st_ino, st_nlink;
    mode_t st_mode;
    unsigned st_uid, st_gid, padding;
    unsigned long st_rdev;
    long st_size, others[11];
};
_Static_assert(sizeof(struct stat) == 144, "a stat has 144 bytes");
#define S_ISDIR(mode) (((mode) & 0170000) == 0040000)
#define S_ISREG(mode) (((mode) & 0170000) == 0100000)
int stat(const char *name, struct stat *to);
int fstat(int file, struct stat *to);
int fchmod(int file, mode_t mode);

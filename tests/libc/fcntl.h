/* As much as the programs here use, where the compiler has no headers of a C library: Linux on x86-64. */
enum { O_RDONLY = 0, O_WRONLY = 1, O_RDWR = 2, O_CREAT = 0100, O_TRUNC = 01000 };
enum { O_DIRECTORY = 0200000, O_NOFOLLOW = 0400000, O_CLOEXEC = 02000000 };
enum { F_GETFD = 1, F_SETLK = 6, F_WRLCK = 1 };
struct flock {
    short l_type, l_whence;
    long l_start, l_len;
    int l_pid;
};
_Static_assert(sizeof(struct flock) == 32, "a flock has 32 bytes");
int open(const char *name, int how, ...);
int fcntl(int file, int what, ...);

/* As much as the programs here use, where the compiler has no headers of a C library: Linux on x86-64. */
#include <stddef.h>
#include <sys/types.h>
enum { STDIN_FILENO = 0, STDOUT_FILENO = 1, STDERR_FILENO = 2, SEEK_SET = 0 };
int close(int file);
int fsync(int file);
int isatty(int file);
ssize_t read(int file, void *to, size_t room);
ssize_t write(int file, const void *from, size_t count);
ssize_t readlink(const char *name, char *to, size_t room);
int unlink(const char *name);

/* As much as the programs here use, where the compiler has no headers of a C library: Linux on x86-64. */
enum { ENOENT = 2, EAGAIN = 11, ENOMEM = 12, EACCES = 13, EISDIR = 21, EINVAL = 22 };
int *__errno_location(void);
#define errno (*__errno_location())

/* As much as the programs here use, where the compiler has no headers of a C library. */
#include <stddef.h>
_Noreturn void exit(int status);
void *realloc(void *at, size_t size);
void free(void *at);
void qsort(void *at, size_t count, size_t size, int (*compare)(const void *one, const void *other));
char *getenv(const char *name);
char *realpath(const char *name, char *to);

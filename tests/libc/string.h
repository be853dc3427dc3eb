/* As much as the programs here use, where the compiler has no headers of a C library. */
#include <stddef.h>
void *memchr(const void *bytes, int byte, size_t count);
int memcmp(const void *one, const void *other, size_t count);
void *memcpy(void *to, const void *from, size_t count);
void *memset(void *to, int byte, size_t count);
int strcmp(const char *one, const char *other);
char *strcpy(char *to, const char *from);
size_t strlen(const char *text);
char *strrchr(const char *text, int byte);
char *strerror(int error);

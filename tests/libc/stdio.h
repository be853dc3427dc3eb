/* As much as the programs here use, where the compiler has no headers of a C library. */
#include <stdarg.h>
#include <stddef.h>
#include <sys/types.h>
typedef struct FILE FILE;
extern FILE *stdin, *stdout, *stderr;
FILE *fopen(const char *name, const char *how);
FILE *fdopen(int file, const char *how);
size_t fread(void *to, size_t size, size_t count, FILE *file);
size_t fwrite(const void *from, size_t size, size_t count, FILE *file);
ssize_t getline(char **line, size_t *room, FILE *file);
int feof(FILE *file);
int fclose(FILE *file);
int fflush(FILE *file);
void setbuf(FILE *file, char *room);
int fputs(const char *text, FILE *file);
int printf(const char *format, ...);
int dprintf(int file, const char *format, ...);
int fprintf(FILE *file, const char *format, ...);
int vfprintf(FILE *file, const char *format, va_list values);
int snprintf(char *to, size_t room, const char *format, ...);
int rename(const char *from, const char *to);

/* As much as the programs here use, where the compiler has no headers of a C library: Linux on x86-64. */
#ifndef SYS_TYPES_H
#define SYS_TYPES_H
typedef long ssize_t;
typedef unsigned mode_t;
#endif

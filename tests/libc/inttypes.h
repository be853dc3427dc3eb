/* As much as the programs here use, where the compiler has no headers of a C library: Linux on x86-64. */
#include <stdint.h>
#define PRIu64 "lu"

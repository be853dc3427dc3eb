/* As much as the programs here use, where the compiler has no headers of a C library: Linux on x86-64. */
enum { SIGXFSZ = 25 };
#define SIG_ERR ((void (*)(int)) - 1)
#define SIG_IGN ((void (*)(int))1)
void (*signal(int number, void (*handler)(int)))(int);

/* C11 7.21, as far as standard input and output go without streams: `cil run` offers getchar and putchar, and lib/stdio.c has the
   body of puts. */
#ifndef CIL_STDIO_H
#define CIL_STDIO_H

#include <stddef.h>

#define EOF (-1)

int getchar(void);
int putchar(int character);
int puts(const char *text);

#endif

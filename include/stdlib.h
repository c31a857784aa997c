/* C11 7.22, without floating types, the environment and multibyte characters: `cil run` offers abort, exit, free and malloc, and
   lib/stdlib.c has the bodies of the rest. */
#ifndef CIL_STDLIB_H
#define CIL_STDLIB_H

#include <stddef.h>

#define EXIT_SUCCESS 0
#define EXIT_FAILURE 1
#define RAND_MAX 32767

typedef struct { int quot, rem; } div_t;
typedef struct { long quot, rem; } ldiv_t;
typedef struct { long long quot, rem; } lldiv_t;

_Noreturn void abort(void);
_Noreturn void exit(int status);
void free(void *pointer);
void *malloc(size_t size);

int abs(int value);
int atoi(const char *text);
long atol(const char *text);
void *bsearch(const void *key, const void *base, size_t count, size_t size, int (*compare)(const void *, const void *));
void *calloc(size_t count, size_t size);
div_t div(int dividend, int divisor);
long labs(long value);
ldiv_t ldiv(long dividend, long divisor);
long long llabs(long long value);
lldiv_t lldiv(long long dividend, long long divisor);
void qsort(void *base, size_t count, size_t size, int (*compare)(const void *, const void *));
int rand(void);
void *realloc(void *pointer, size_t size);
void srand(unsigned int seed);
long strtol(const char *text, char **end, int base);
unsigned long strtoul(const char *text, char **end, int base);

#endif

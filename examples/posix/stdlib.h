/* What the environment and POSIX add to C11 7.22 as include/ has it. */
#include_next <stdlib.h>
#ifndef CIL_POSIX_STDLIB_H
#define CIL_POSIX_STDLIB_H

#define MB_CUR_MAX ((size_t)1)

int atexit(void (*function)(void));
long long atoll(const char *text);
char *getenv(const char *name);
int mkstemp(char *path);
int setenv(const char *name, const char *value, int over);
long long strtoll(const char *text, char **end, int base);
unsigned long long strtoull(const char *text, char **end, int base);
int system(const char *command);
int unsetenv(const char *name);

#endif

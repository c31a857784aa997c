/* What a locale and POSIX add to C11 7.24 as include/ has it. */
#include_next <string.h>
#ifndef CIL_POSIX_STRING_H
#define CIL_POSIX_STRING_H

int strcoll(const char *left, const char *right);
char *strdup(const char *text);
char *strerror(int number);
char *strndup(const char *text, size_t size);
size_t strnlen(const char *text, size_t size);
char *strtok(char *text, const char *stops);
char *strtok_r(char *text, const char *stops, char **rest);

#endif

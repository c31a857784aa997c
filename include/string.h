/* C11 7.24, without strings of a locale: lib/string.c has the bodies. */
#ifndef CIL_STRING_H
#define CIL_STRING_H

#include <stddef.h>

void *memchr(const void *object, int byte, size_t size);
int memcmp(const void *left, const void *right, size_t size);
void *memcpy(void *to, const void *from, size_t size);
void *memmove(void *to, const void *from, size_t size);
void *memset(void *object, int byte, size_t size);
char *strcat(char *to, const char *from);
char *strchr(const char *text, int character);
int strcmp(const char *left, const char *right);
char *strcpy(char *to, const char *from);
size_t strcspn(const char *text, const char *stops);
size_t strlen(const char *text);
char *strncat(char *to, const char *from, size_t size);
int strncmp(const char *left, const char *right, size_t size);
char *strncpy(char *to, const char *from, size_t size);
char *strpbrk(const char *text, const char *stops);
char *strrchr(const char *text, int character);
size_t strspn(const char *text, const char *taken);
char *strstr(const char *text, const char *part);

#endif

#include <string.h>

void *memchr(const void *object, int byte, size_t size)
{
    const unsigned char *bytes = object;
    size_t i;
    for (i = 0; i < size; i++)
        if (bytes[i] == (unsigned char)byte)
            return (void *)(bytes + i);
    return NULL;
}

int memcmp(const void *left, const void *right, size_t size)
{
    const unsigned char *a = left, *b = right;
    size_t i;
    for (i = 0; i < size; i++)
        if (a[i] != b[i])
            return a[i] < b[i] ? -1 : 1;
    return 0;
}

void *memcpy(void *to, const void *from, size_t size)
{
    unsigned char *a = to;
    const unsigned char *b = from;
    size_t i;
    for (i = 0; i < size; i++)
        a[i] = b[i];
    return to;
}

/* The ranges may overlap: a comparison of pointers of one object alone is defined, so each place of `from` is compared for equality. */
void *memmove(void *to, const void *from, size_t size)
{
    unsigned char *a = to;
    const unsigned char *b = from;
    size_t i;
    for (i = 1; i < size; i++)
        if (b + i == a) {
            while (size--)
                a[size] = b[size];
            return to;
        }
    return memcpy(to, from, size);
}

void *memset(void *object, int byte, size_t size)
{
    unsigned char *bytes = object;
    size_t i;
    for (i = 0; i < size; i++)
        bytes[i] = (unsigned char)byte;
    return object;
}

char *strcat(char *to, const char *from)
{
    strcpy(to + strlen(to), from);
    return to;
}

char *strchr(const char *text, int character)
{
    for (;; text++) {
        if (*text == (char)character)
            return (char *)text;
        if (!*text)
            return NULL;
    }
}

int strcmp(const char *left, const char *right)
{
    const unsigned char *a = (const unsigned char *)left, *b = (const unsigned char *)right;
    while (*a && *a == *b)
        a++, b++;
    return *a == *b ? 0 : *a < *b ? -1 : 1;
}

char *strcpy(char *to, const char *from)
{
    size_t i = 0;
    while ((to[i] = from[i]))
        i++;
    return to;
}

size_t strcspn(const char *text, const char *stops)
{
    size_t i = 0;
    while (text[i] && !strchr(stops, text[i]))
        i++;
    return i;
}

size_t strlen(const char *text)
{
    size_t i = 0;
    while (text[i])
        i++;
    return i;
}

char *strncat(char *to, const char *from, size_t size)
{
    char *end = to + strlen(to);
    size_t i;
    for (i = 0; i < size && from[i]; i++)
        end[i] = from[i];
    end[i] = 0;
    return to;
}

int strncmp(const char *left, const char *right, size_t size)
{
    const unsigned char *a = (const unsigned char *)left, *b = (const unsigned char *)right;
    size_t i;
    for (i = 0; i < size; i++) {
        if (a[i] != b[i])
            return a[i] < b[i] ? -1 : 1;
        if (!a[i])
            return 0;
    }
    return 0;
}

char *strncpy(char *to, const char *from, size_t size)
{
    size_t i;
    for (i = 0; i < size && from[i]; i++)
        to[i] = from[i];
    for (; i < size; i++)
        to[i] = 0;
    return to;
}

char *strpbrk(const char *text, const char *stops)
{
    text += strcspn(text, stops);
    return *text ? (char *)text : NULL;
}

char *strrchr(const char *text, int character)
{
    const char *last = NULL;
    for (;; text++) {
        if (*text == (char)character)
            last = text;
        if (!*text)
            return (char *)last;
    }
}

size_t strspn(const char *text, const char *taken)
{
    size_t i = 0;
    while (text[i] && strchr(taken, text[i]))
        i++;
    return i;
}

char *strstr(const char *text, const char *part)
{
    size_t size = strlen(part);
    for (;; text++) {
        if (!strncmp(text, part, size))
            return (char *)text;
        if (!*text)
            return NULL;
    }
}

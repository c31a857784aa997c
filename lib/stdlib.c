#include <ctype.h>
#include <errno.h>
#include <limits.h>
#include <stdlib.h>
#include <string.h>

int errno;

static unsigned long state = 1;

int abs(int value) { return value < 0 ? -value : value; }
long labs(long value) { return value < 0 ? -value : value; }
long long llabs(long long value) { return value < 0 ? -value : value; }

div_t div(int dividend, int divisor)
{
    div_t both;
    both.quot = dividend / divisor;
    both.rem = dividend % divisor;
    return both;
}

ldiv_t ldiv(long dividend, long divisor)
{
    ldiv_t both;
    both.quot = dividend / divisor;
    both.rem = dividend % divisor;
    return both;
}

lldiv_t lldiv(long long dividend, long long divisor)
{
    lldiv_t both;
    both.quot = dividend / divisor;
    both.rem = dividend % divisor;
    return both;
}

int rand(void)
{
    state = state * 1103515245 + 12345;
    return (int)(state / 65536 % 32768);
}

void srand(unsigned int seed) { state = seed; }

static int digit(int character)
{
    if (isdigit(character))
        return character - '0';
    return isalpha(character) ? tolower(character) - 'a' + 10 : 36;
}

/* The magnitude of a number that begins at `text`; `limit` is the greatest that is given. */
static unsigned long number(const char *text, char **end, int base, unsigned long limit, int *over)
{
    unsigned long value = 0;
    const char *start = text;
    if ((base == 0 || base == 16) && text[0] == '0' && (text[1] == 'x' || text[1] == 'X') && digit((unsigned char)text[2]) < 16) {
        base = 16;
        text += 2;
    } else if (base == 0) {
        base = text[0] == '0' ? 8 : 10;
    }
    for (; digit((unsigned char)*text) < base; text++) {
        unsigned long more = (unsigned long)digit((unsigned char)*text);
        start = NULL;
        if (*over || value > (limit - more) / (unsigned long)base) {
            *over = 1;
            continue;
        }
        value = value * (unsigned long)base + more;
    }
    *end = start ? NULL : (char *)text;
    return value;
}

/* The sign and the blanks before a number. */
static const char *begun(const char *text, int *minus)
{
    while (isspace((unsigned char)*text))
        text++;
    *minus = *text == '-';
    return *text == '-' || *text == '+' ? text + 1 : text;
}

long strtol(const char *text, char **end, int base)
{
    int minus, over = 0;
    char *last;
    const char *first = begun(text, &minus);
    unsigned long limit = minus ? (unsigned long)LONG_MAX + 1 : (unsigned long)LONG_MAX;
    unsigned long value = number(first, &last, base, limit, &over);
    if (end)
        *end = last ? last : (char *)text;
    if (over) {
        errno = ERANGE;
        return minus ? LONG_MIN : LONG_MAX;
    }
    return minus ? (value == limit ? LONG_MIN : -(long)value) : (long)value;
}

unsigned long strtoul(const char *text, char **end, int base)
{
    int minus, over = 0;
    char *last;
    const char *first = begun(text, &minus);
    unsigned long value = number(first, &last, base, ULONG_MAX, &over);
    if (end)
        *end = last ? last : (char *)text;
    if (over) {
        errno = ERANGE;
        return ULONG_MAX;
    }
    return minus ? 0 - value : value;
}

int atoi(const char *text) { return (int)strtol(text, NULL, 10); }
long atol(const char *text) { return strtol(text, NULL, 10); }

void *bsearch(const void *key, const void *base, size_t count, size_t size, int (*compare)(const void *, const void *))
{
    const char *low = base;
    while (count > 0) {
        const char *middle = low + count / 2 * size;
        int order = compare(key, middle);
        if (order == 0)
            return (void *)middle;
        if (order > 0) {
            low = middle + size;
            count -= count / 2 + 1;
        } else {
            count /= 2;
        }
    }
    return NULL;
}

static void exchange(char *a, char *b, size_t size)
{
    size_t i;
    for (i = 0; i < size; i++) {
        char byte = a[i];
        a[i] = b[i];
        b[i] = byte;
    }
}

static void sink(char *base, size_t root, size_t count, size_t size, int (*compare)(const void *, const void *))
{
    size_t child;
    while ((child = 2 * root + 1) < count) {
        if (child + 1 < count && compare(base + child * size, base + (child + 1) * size) < 0)
            child++;
        if (compare(base + root * size, base + child * size) >= 0)
            return;
        exchange(base + root * size, base + child * size, size);
        root = child;
    }
}

/* A heap sort: at most a multiple of count times its logarithm, and no memory. */
void qsort(void *base, size_t count, size_t size, int (*compare)(const void *, const void *))
{
    size_t i;
    for (i = count / 2; i > 0; i--)
        sink(base, i - 1, count, size, compare);
    for (i = count; i > 1; i--) {
        exchange(base, (char *)base + (i - 1) * size, size);
        sink(base, 0, i - 1, size, compare);
    }
}

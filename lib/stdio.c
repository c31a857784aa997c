#include <stdio.h>

int puts(const char *text)
{
    while (*text)
        putchar((unsigned char)*text++);
    putchar('\n');
    return 0;
}

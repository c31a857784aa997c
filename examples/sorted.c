/* Reads words and writes them sorted, each with how often it came; the exit status is the number of different words. */
#include <stdio.h>
#include <stdlib.h>
#include <string.h>

struct word {
    char *text;
    unsigned long count;
};

static struct word *words;
static size_t used, room;

static void write_number(unsigned long number)
{
    if (number > 9)
        write_number(number / 10);
    putchar('0' + (int)(number % 10));
}

static char *copy(const char *text)
{
    char *made = malloc(strlen(text) + 1);
    if (!made)
        exit(EXIT_FAILURE);
    return strcpy(made, text);
}

static void add(const char *text)
{
    size_t i;
    for (i = 0; i < used; i++)
        if (strcmp(words[i].text, text) == 0) {
            words[i].count++;
            return;
        }
    if (used == room) {
        room = room ? 2 * room : 4;
        words = realloc(words, room * sizeof *words);
        if (!words)
            exit(EXIT_FAILURE);
    }
    words[used].text = copy(text);
    words[used++].count = 1;
}

static int by_text(const void *left, const void *right)
{
    return strcmp(((const struct word *)left)->text, ((const struct word *)right)->text);
}

static int read_word(char *word, size_t size)
{
    size_t n = 0;
    int c;
    do
        c = getchar();
    while (c == ' ' || c == '\n');
    for (; c != EOF && c != ' ' && c != '\n'; c = getchar())
        if (n < size - 1)
            word[n++] = (char)c;
    word[n] = '\0';
    return n > 0;
}

int main(void)
{
    char word[32];
    size_t i;
    while (read_word(word, sizeof word))
        add(word);
    qsort(words, used, sizeof *words, by_text);
    for (i = 0; i < used; i++) {
        write_number(words[i].count);
        putchar(' ');
        puts(words[i].text);
        free(words[i].text);
    }
    free(words);
    return (int)used;
}

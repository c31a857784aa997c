/* Writes the lines and bytes of each file that it is given, and the bytes that its status says. */
#include <errno.h>
#include <fcntl.h>
#include <stdio.h>
#include <string.h>
#include <sys/stat.h>
#include <unistd.h>

/* Counts what a file has; gives whether all of it was read. */
static int count(int file, unsigned long *lines, unsigned long *bytes)
{
    char block[512];
    ssize_t size;

    for (*lines = *bytes = 0; (size = read(file, block, sizeof block)) > 0; *bytes += (unsigned long)size)
        for (ssize_t at = 0; at < size; at++)
            *lines += block[at] == '\n';
    return size == 0;
}

int main(int words, char **word)
{
    struct stat found;
    unsigned long lines, bytes;
    int failed = 0;

    for (int at = 1; at < words; at++) {
        int file = open(word[at], O_RDONLY);
        if (file < 0 || fstat(file, &found) || !count(file, &lines, &bytes)) {
            printf("%s: %s%s\n", word[at], strerror(errno), errno == ENOENT ? " (ENOENT)" : "");
            failed = 1;
        } else {
            printf("%s: %lu lines, %lu of %ld bytes%s\n", word[at], lines, bytes, (long)found.st_size, S_ISREG(found.st_mode) ? "" : ", no file");
        }
        if (file >= 0)
            close(file);
    }
    return failed;
}

/* C11 7.21 with streams, and what POSIX adds, without the functions that have a `va_list` or a floating type. */
#include_next <stdio.h>
#ifndef CIL_POSIX_STDIO_H
#define CIL_POSIX_STDIO_H

#include <sys/types.h>

#define BUFSIZ 8192
#define FILENAME_MAX 4096
#define FOPEN_MAX 16
#define L_tmpnam 20
#define TMP_MAX 238328
#define _IOFBF 0
#define _IOLBF 1
#define _IONBF 2
#ifndef SEEK_SET
#define SEEK_SET 0
#define SEEK_CUR 1
#define SEEK_END 2
#endif

typedef struct _IO_FILE FILE;

extern FILE *stdin, *stdout, *stderr;

void clearerr(FILE *stream);
int fclose(FILE *stream);
FILE *fdopen(int descriptor, const char *mode);
int feof(FILE *stream);
int ferror(FILE *stream);
int fflush(FILE *stream);
int fgetc(FILE *stream);
char *fgets(char *to, int size, FILE *stream);
int fileno(FILE *stream);
FILE *fopen(const char *path, const char *mode);
int fprintf(FILE *stream, const char *format, ...);
int fputc(int character, FILE *stream);
int fputs(const char *text, FILE *stream);
size_t fread(void *to, size_t size, size_t count, FILE *stream);
FILE *freopen(const char *path, const char *mode, FILE *stream);
int fscanf(FILE *stream, const char *format, ...);
int fseek(FILE *stream, long offset, int whence);
int fseeko(FILE *stream, off_t offset, int whence);
long ftell(FILE *stream);
off_t ftello(FILE *stream);
size_t fwrite(const void *from, size_t size, size_t count, FILE *stream);
int getc(FILE *stream);
int pclose(FILE *stream);
void perror(const char *text);
FILE *popen(const char *command, const char *mode);
int printf(const char *format, ...);
int putc(int character, FILE *stream);
int remove(const char *path);
int rename(const char *path, const char *other);
void rewind(FILE *stream);
int scanf(const char *format, ...);
void setbuf(FILE *stream, char *buffer);
int setvbuf(FILE *stream, char *buffer, int mode, size_t size);
int snprintf(char *to, size_t size, const char *format, ...);
int sprintf(char *to, const char *format, ...);
int sscanf(const char *text, const char *format, ...);
FILE *tmpfile(void);
int ungetc(int character, FILE *stream);

#endif

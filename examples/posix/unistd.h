/* POSIX <unistd.h>: files, processes and options. */
#ifndef CIL_POSIX_UNISTD_H
#define CIL_POSIX_UNISTD_H

#include <sys/types.h>

#define STDIN_FILENO 0
#define STDOUT_FILENO 1
#define STDERR_FILENO 2
#define F_OK 0
#define X_OK 1
#define W_OK 2
#define R_OK 4
#ifndef SEEK_SET
#define SEEK_SET 0
#define SEEK_CUR 1
#define SEEK_END 2
#endif

extern char *optarg;
extern int opterr, optind, optopt;

_Noreturn void _exit(int status);
int access(const char *path, int mode);
int chdir(const char *path);
int chown(const char *path, uid_t owner, gid_t group);
int close(int descriptor);
int dup(int descriptor);
int dup2(int descriptor, int other);
int fchown(int descriptor, uid_t owner, gid_t group);
int fsync(int descriptor);
int ftruncate(int descriptor, off_t size);
char *getcwd(char *to, size_t size);
gid_t getgid(void);
int getopt(int count, char *const words[], const char *options);
pid_t getpid(void);
uid_t getuid(void);
int isatty(int descriptor);
int link(const char *path, const char *other);
off_t lseek(int descriptor, off_t offset, int whence);
ssize_t pread(int descriptor, void *to, size_t size, off_t offset);
ssize_t pwrite(int descriptor, const void *from, size_t size, off_t offset);
ssize_t read(int descriptor, void *to, size_t size);
ssize_t readlink(const char *path, char *to, size_t size);
int rmdir(const char *path);
unsigned int sleep(unsigned int seconds);
int symlink(const char *target, const char *path);
long sysconf(int name);
int unlink(const char *path);
ssize_t write(int descriptor, const void *from, size_t size);

#endif

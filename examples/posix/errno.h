/* C11 7.5 and POSIX <errno.h>: `errno` is the object of the C library of GNU, where include/errno.h has that of lib/stdlib.c. */
#ifndef CIL_POSIX_ERRNO_H
#define CIL_POSIX_ERRNO_H

#define EPERM 1
#define ENOENT 2
#define EINTR 4
#define EIO 5
#define EBADF 9
#define EAGAIN 11
#define ENOMEM 12
#define EACCES 13
#define EBUSY 16
#define EEXIST 17
#define ENOTDIR 20
#define EISDIR 21
#define EINVAL 22
#define ENFILE 23
#define EMFILE 24
#define ENOTTY 25
#define EFBIG 27
#define ENOSPC 28
#define ESPIPE 29
#define EROFS 30
#define EPIPE 32
#define EDOM 33
#define ERANGE 34
#define ENAMETOOLONG 36
#define ENOSYS 38
#define EPROTO 71
#define EOVERFLOW 75
#define EILSEQ 84
#define ENOTSUP 95
#define EWOULDBLOCK EAGAIN

int *__errno_location(void);

#define errno (*__errno_location())

#endif

/* POSIX <utime.h>. */
#ifndef CIL_POSIX_UTIME_H
#define CIL_POSIX_UTIME_H

#include <sys/types.h>

struct utimbuf {
    time_t actime;
    time_t modtime;
};

int utime(const char *path, const struct utimbuf *times);

#endif

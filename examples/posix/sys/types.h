/* POSIX <sys/types.h>, as the C library of GNU has these types for x86-64. */
#ifndef CIL_POSIX_SYS_TYPES_H
#define CIL_POSIX_SYS_TYPES_H

#include <stddef.h>
#include <stdint.h>

typedef long blkcnt_t;
typedef long blksize_t;
typedef long clock_t;
typedef unsigned long dev_t;
typedef unsigned int gid_t;
typedef unsigned long ino_t;
typedef unsigned int mode_t;
typedef unsigned long nlink_t;
typedef long off_t;
typedef int pid_t;
typedef long ssize_t;
typedef long suseconds_t;
typedef long time_t;
typedef unsigned int uid_t;

#endif

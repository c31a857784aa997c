/* C11 7.5: lib/stdlib.c has the object. */
#ifndef CIL_ERRNO_H
#define CIL_ERRNO_H

#define EDOM 33
#define EILSEQ 84
#define ENOMEM 12
#define EINVAL 22
#define ERANGE 34

extern int errno;

#endif

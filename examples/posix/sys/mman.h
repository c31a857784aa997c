/* POSIX <sys/mman.h>: files in memory. */
#ifndef CIL_POSIX_SYS_MMAN_H
#define CIL_POSIX_SYS_MMAN_H

#include <sys/types.h>

#define PROT_NONE 0
#define PROT_READ 1
#define PROT_WRITE 2
#define PROT_EXEC 4
#define MAP_SHARED 1
#define MAP_PRIVATE 2
#define MAP_FIXED 16
#define MAP_FAILED ((void *)-1)

void *mmap(void *place, size_t size, int access, int flags, int descriptor, off_t offset);
int munmap(void *place, size_t size);

#endif

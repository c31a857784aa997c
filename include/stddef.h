/* C11 7.19, under LP64, for `gcc -E -nostdinc -I include`. */
#ifndef CIL_STDDEF_H
#define CIL_STDDEF_H

typedef long ptrdiff_t;
typedef unsigned long size_t;
typedef int wchar_t;

#ifndef NULL
#define NULL ((void *)0)
#endif

/* No constant expression, as 7.19p3 wants it: it is refused where one is asked, and `cil run` finds it undefined; gcc gives its value in the text. */
#define offsetof(type, member) ((size_t)&((type *)0)->member)

#endif

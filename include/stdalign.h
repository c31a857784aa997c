/* C11 7.15: `alignas` is excluded where it is used. */
#ifndef CIL_STDALIGN_H
#define CIL_STDALIGN_H

#define alignas _Alignas
#define alignof _Alignof
#define __alignas_is_defined 1
#define __alignof_is_defined 1

#endif

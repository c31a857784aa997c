/* C11 7.23. */
#ifndef CIL_STDNORETURN_H
#define CIL_STDNORETURN_H

#define noreturn _Noreturn

#endif

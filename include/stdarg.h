/* C11 7.16: a unit may include it; its names are excluded where they are used. */
#ifndef CIL_STDARG_H
#define CIL_STDARG_H

#define va_list __builtin_va_list
#define va_start __builtin_va_start
#define va_arg __builtin_va_arg
#define va_copy __builtin_va_copy
#define va_end __builtin_va_end

#endif

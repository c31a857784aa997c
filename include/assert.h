/* C11 7.2: an assertion that fails calls `abort`, without a message. */
#undef assert
#ifdef NDEBUG
#define assert(condition) ((void)0)
#else
_Noreturn void abort(void);
#define assert(condition) ((condition) ? (void)0 : abort())
#endif

#undef static_assert
#define static_assert _Static_assert

struct device_event {
  int kind;
  unsigned int code;
  long int seconds, microseconds;
  union { int number; const char *name; } of;
};
typedef struct device_handle device_handle;
typedef int (*device_callback) (device_handle *__handle, const struct device_event *__event, void *__data);
enum device_state { device_closed, device_opening, device_open = 4, device_failed = -1 };

extern int device_open_by_name (const char *__name, int __flags, device_handle **__restrict __result)
     __attribute__ ((__nothrow__ , __leaf__)) __attribute__ ((__nonnull__ (1, 3)));
extern device_handle *device_open_first (int __flags) __attribute__ ((__malloc__)) __attribute__ ((__warn_unused_result__));
extern void device_close (device_handle *__handle) __attribute__ ((__nothrow__ , __leaf__));
extern enum device_state device_state_of (const device_handle *__handle) __attribute__ ((__pure__)) __attribute__ ((__nonnull__ (1)));

extern __ssize_t device_read (device_handle *__restrict __handle, void *__restrict __buffer, size_t __count)
     __attribute__ ((__warn_unused_result__));
extern __ssize_t device_write (device_handle *__restrict __handle, const void *__restrict __buffer,
        size_t __count) __attribute__ ((__nonnull__ (2)));
extern int device_control (device_handle *__handle, unsigned long int __request, ...) __attribute__ ((__nothrow__ , __leaf__));
extern int device_wait (device_handle *const *__handles, unsigned int __count, long int __timeout);
extern int device_watch (device_handle *__handle, device_callback __callback, void *__data)
     __attribute__ ((__nothrow__ , __leaf__)) __attribute__ ((__nonnull__ (1, 2)));
extern const char *device_name (const device_handle *__handle) __attribute__ ((__const__));
extern int device_log (device_handle *__restrict __handle, const char *__restrict __format, ...)
     __attribute__ ((__format__ (__printf__, 2, 3)));
__extension__ extern unsigned long long int device_total (const device_handle *__handle)
     __attribute__ ((__nothrow__ , __leaf__)) __attribute__ ((__pure__));

static __inline int device_is_open (const device_handle *__handle)
{
  return device_state_of (__handle) == device_open;
}

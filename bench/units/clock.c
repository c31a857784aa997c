typedef long int clock_ticks_t;
typedef unsigned int clock_id_t;

struct clock_time
{
  long int clock_seconds;
  long int clock_nanoseconds;
};

struct clock_calendar
{
  int second;
  int minute;
  int hour;
  int day;
  int month;
  int year;
  int weekday;
  int is_summer;

  long int offset;
  const char *zone;
};

enum
{
  clock_real = 0,
  clock_steady,
  clock_process = (1 << 1),
  clock_thread = (1 << 1) | 1,
  clock_last = clock_thread
};

extern clock_ticks_t clock_ticks (void) __attribute__ ((__nothrow__ , __leaf__));
extern int clock_get (clock_id_t __id, struct clock_time *__time) __attribute__ ((__nothrow__ , __leaf__))
     __attribute__ ((__nonnull__ (2)));
extern int clock_set (clock_id_t __id, const struct clock_time *__time)
     __attribute__ ((__nothrow__ , __leaf__)) __attribute__ ((__nonnull__ (2)));
extern int clock_resolution (clock_id_t __id, struct clock_time *__time) __attribute__ ((__nothrow__ , __leaf__));
extern int clock_sleep (clock_id_t __id, int __flags, const struct clock_time *__wanted,
       struct clock_time *__left);
extern long int clock_difference (const struct clock_time *__a, const struct clock_time *__b)
     __attribute__ ((__nothrow__ , __leaf__)) __attribute__ ((__pure__)) __attribute__ ((__nonnull__ (1, 2)));
extern struct clock_calendar *clock_local (const __time_t *__restrict __time,
         struct clock_calendar *__restrict __result) __attribute__ ((__nothrow__ , __leaf__));
extern struct clock_calendar *clock_universal (const __time_t *__restrict __time,
         struct clock_calendar *__restrict __result) __attribute__ ((__nothrow__ , __leaf__));
extern __time_t clock_of_calendar (struct clock_calendar *__calendar) __attribute__ ((__nothrow__ , __leaf__));
extern size_t clock_format (char *__restrict __s, size_t __maxsize,
        const char *__restrict __format, const struct clock_calendar *__restrict __calendar)
     __attribute__ ((__nothrow__ , __leaf__)) __attribute__ ((__nonnull__ (1, 3, 4)));
extern char *clock_text (const struct clock_calendar *__calendar) __attribute__ ((__nothrow__ , __leaf__))
     __attribute__ ((__deprecated__));
extern char *clock_zones[2];
extern int clock_has_summer;

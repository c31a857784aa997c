/* C11 7.27 and POSIX <time.h>, without `difftime`, which has a floating type. */
#ifndef CIL_POSIX_TIME_H
#define CIL_POSIX_TIME_H

#include <sys/types.h>

#define CLOCKS_PER_SEC 1000000L
#define CLOCK_REALTIME 0
#define CLOCK_MONOTONIC 1

struct timespec {
    time_t tv_sec;
    long tv_nsec;
};

struct tm {
    int tm_sec;
    int tm_min;
    int tm_hour;
    int tm_mday;
    int tm_mon;
    int tm_year;
    int tm_wday;
    int tm_yday;
    int tm_isdst;
    long tm_gmtoff;
    const char *tm_zone;
};

char *asctime(const struct tm *time);
clock_t clock(void);
int clock_gettime(int clock, struct timespec *now);
char *ctime(const time_t *time);
struct tm *gmtime(const time_t *time);
struct tm *gmtime_r(const time_t *time, struct tm *parts);
struct tm *localtime(const time_t *time);
struct tm *localtime_r(const time_t *time, struct tm *parts);
time_t mktime(struct tm *time);
int nanosleep(const struct timespec *asked, struct timespec *left);
size_t strftime(char *to, size_t size, const char *format, const struct tm *time);
time_t time(time_t *now);

#endif

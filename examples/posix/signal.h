/* C11 7.14: signals by their numbers. `sig_atomic_t` is of use in objects that are `volatile`, which the profile has not. */
#ifndef CIL_POSIX_SIGNAL_H
#define CIL_POSIX_SIGNAL_H

#include <sys/types.h>

typedef int sig_atomic_t;

#define SIG_DFL ((void (*)(int))0)
#define SIG_IGN ((void (*)(int))1)
#define SIG_ERR ((void (*)(int))-1)
#define SIGHUP 1
#define SIGINT 2
#define SIGQUIT 3
#define SIGILL 4
#define SIGABRT 6
#define SIGFPE 8
#define SIGKILL 9
#define SIGSEGV 11
#define SIGPIPE 13
#define SIGALRM 14
#define SIGTERM 15

int kill(pid_t process, int signal);
int raise(int signal);
void (*signal(int signal, void (*handler)(int)))(int);

#endif

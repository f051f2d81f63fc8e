/* The few functions of the system that our C calls, as Linux on x86-64 has them: declared by hand, since the
 * kit has a C library and no headers. None of them allocates. */
#ifndef SYSTEM_H
#define SYSTEM_H

#include <stddef.h>

enum { STANDARD_INPUT = 0, STANDARD_OUTPUT = 1, STANDARD_ERROR = 2 };
enum { O_RDONLY = 0, O_WRONLY = 01, O_CREAT = 0100, O_TRUNC = 01000, O_NONBLOCK = 04000 };
enum { SEEK_END = 2 };
enum { POLLIN = 0x1, POLLOUT = 0x4 };
enum { SIGINT = 2, SIGPIPE = 13, SIGTERM = 15 };
enum { ENOENT = 2, EINTR = 4, ENAMETOOLONG = 36 };
enum { CLOCK_MONOTONIC = 1 };

struct pollfd {
    int fd;
    short events, revents;
};

struct timespec {
    long seconds, nanoseconds;
};

typedef void (*signal_handler)(int);
#define SIG_IGN ((signal_handler)1)

int open(const char *name, int flags, ...);
int close(int descriptor);
ptrdiff_t read(int descriptor, void *bytes, size_t count);
ptrdiff_t pread(int descriptor, void *bytes, size_t count, long place);
ptrdiff_t write(int descriptor, const void *bytes, size_t count);
long lseek(int descriptor, long place, int from);
int fsync(int descriptor);
int rename(const char *name, const char *new_name);
int unlink(const char *name);
int pipe2(int descriptors[2], int flags);
int poll(struct pollfd *awaited, unsigned long count, int milliseconds);
int clock_gettime(int clock, struct timespec *now);
signal_handler signal(int number, signal_handler handler);
_Noreturn void _exit(int status);

int strcmp(const char *text, const char *other);

int *__errno_location(void);
#define errno (*__errno_location())
/* What an errno means. Unlike strerror, it never allocates. */
const char *strerrordesc_np(int number);

#endif

/* read on standard input, write on standard output and isatty, as a system may answer them: for LD_PRELOAD. The variables
   say whether standard input is a terminal, how often each call that moves bytes is interrupted before, how many bytes a call moves at most, and after how many
   bytes in all each further call fails with which errno; with errno 0 it answers 0. Unset: as the system does. */
#define _GNU_SOURCE
#include <errno.h>
#include <stdlib.h>
#include <sys/syscall.h>
#include <termios.h>
#include <unistd.h>

struct calls {
    const char *interruptions, *most, *sound, *error;
    long interrupted, moved;
};

static long number(const char *name, long otherwise) {
    const char *value = getenv(name);
    return value ? atol(value) : otherwise;
}

static ssize_t call(struct calls *calls, long which, int fd, void *buffer, size_t count) {
    if (calls->interrupted < number(calls->interruptions, 0)) {
        calls->interrupted += 1;
        errno = EINTR;
        return -1;
    }
    calls->interrupted = 0;
    long most = number(calls->most, (long)count), sound = number(calls->sound, -1);
    if (sound >= 0 && calls->moved >= sound) {
        errno = (int)number(calls->error, EIO);
        return errno ? -1 : 0;
    }
    if (sound >= 0 && most > sound - calls->moved) most = sound - calls->moved;
    ssize_t moved = syscall(which, fd, buffer, (long)count < most ? count : (size_t)most);
    if (moved > 0) calls->moved += moved;
    return moved;
}

ssize_t read(int fd, void *buffer, size_t count) {
    static struct calls reads = { "READ_INTERRUPTED", "READ_MOST", "READ_SOUND", "READ_ERRNO", 0, 0 };
    return fd == 0 ? call(&reads, SYS_read, fd, buffer, count) : syscall(SYS_read, fd, buffer, count);
}

ssize_t write(int fd, const void *buffer, size_t count) {
    static struct calls writes = { "WRITE_INTERRUPTED", "WRITE_MOST", "WRITE_SOUND", "WRITE_ERRNO", 0, 0 };
    return fd == 1 ? call(&writes, SYS_write, fd, (void *)buffer, count) : syscall(SYS_write, fd, buffer, count);
}

int isatty(int fd) {
    struct termios attributes;
    if (fd == 0 && number("TERMINAL", 0)) return 1;
    return tcgetattr(fd, &attributes) == 0;
}

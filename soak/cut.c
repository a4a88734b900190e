/* Loaded before a program (LD_PRELOAD): ends or fails it at one of its calls on files. Standard input, output and error are left alone.
 *    CUT_AT=N     the call with the number N, counted from 0
 *    CUT_HOW      kill: signal 9 before it; half: a write of half its bytes, then signal 9; a number: the call fails with that errno
 *    CUT_TOLD     a file that gets a line for each call: its name, and the path, the new path or the descriptor */
#define _GNU_SOURCE
#include <dlfcn.h>
#include <errno.h>
#include <fcntl.h>
#include <signal.h>
#include <stdarg.h>
#include <stdio.h>
#include <stdlib.h>
#include <string.h>
#include <sys/syscall.h>
#include <unistd.h>

static long calls;

static void tell(const char *name, const char *path)
{
    static ssize_t (*real_write)(int, const void *, size_t);
    static int (*real_open)(const char *, int, ...);
    const char *told = getenv("CUT_TOLD");
    if (!told)
        return;
    if (!real_write) {
        real_write = (ssize_t(*)(int, const void *, size_t))dlsym(RTLD_NEXT, "write");
        real_open = (int (*)(const char *, int, ...))dlsym(RTLD_NEXT, "open");
    }
    int fd = real_open(told, O_WRONLY | O_CREAT | O_APPEND, 0600);
    char line[8192];
    int len = snprintf(line, sizeof line, "%s %s\n", name, path);
    if (fd < 0 || real_write(fd, line, (size_t)len) != len)
        abort();
    syscall(SYS_close, fd); /* not counted */
}

static const char *number(int fd)
{
    static char text[16];
    snprintf(text, sizeof text, "%d", fd);
    return text;
}

static void end(void)
{
    kill(getpid(), SIGKILL);
    for (;;)
        pause();
}

/* 1 if this call is to fail, 2 if it is to write half. */
static int met(const char *name, const char *path)
{
    const char *at = getenv("CUT_AT"), *how = getenv("CUT_HOW");
    tell(name, path);
    if (!at || !how || calls++ != atol(at))
        return 0;
    if (!strcmp(how, "kill"))
        end();
    if (!strcmp(how, "half"))
        return 2;
    errno = atoi(how);
    return 1;
}

#define NEXT(gives, name, ...) static gives (*next)(__VA_ARGS__); if (!next) next = (gives(*)(__VA_ARGS__))dlsym(RTLD_NEXT, name)

int open(const char *path, int flags, ...)
{
    NEXT(int, "open", const char *, int, ...);
    va_list more;
    va_start(more, flags);
    int mode = flags & O_CREAT ? va_arg(more, int) : 0;
    va_end(more);
    return met("open", path) == 1 ? -1 : next(path, flags, mode);
}

ssize_t read(int fd, void *bytes, size_t count)
{
    NEXT(ssize_t, "read", int, void *, size_t);
    return fd > 2 && met("read", number(fd)) == 1 ? -1 : next(fd, bytes, count);
}

ssize_t write(int fd, const void *bytes, size_t count)
{
    NEXT(ssize_t, "write", int, const void *, size_t);
    int how = fd > 2 ? met("write", number(fd)) : 0;
    if (how == 1)
        return -1;
    if (how == 2) {
        if (next(fd, bytes, count / 2) >= 0)
            end();
    }
    return next(fd, bytes, count);
}

int fsync(int fd)
{
    NEXT(int, "fsync", int);
    return met("fsync", number(fd)) == 1 ? -1 : next(fd);
}

int close(int fd)
{
    NEXT(int, "close", int);
    return fd > 2 && met("close", number(fd)) == 1 ? -1 : next(fd);
}

int rename(const char *from, const char *to)
{
    NEXT(int, "rename", const char *, const char *);
    return met("rename", to) == 1 ? -1 : next(from, to);
}

int unlink(const char *path)
{
    NEXT(int, "unlink", const char *);
    return met("unlink", path) == 1 ? -1 : next(path);
}

/* For a tap that is killed at a chosen moment: linked around tap's calls to the system (ld --wrap), it ends the process by SIGKILL at
 * call number CUT, counted from 1. Before that call, but a write is first done by half: so every state of the disk that a kill can
 * leave behind is reached. With FAIL in place of CUT that call fails, as on a broken disk. With TRACE, the number of a descriptor, what
 * is done to files is told there once it is done: the call, the file, and how long that is by then, or its new name. */
#define _GNU_SOURCE
#include <errno.h>
#include <fcntl.h>
#include <limits.h>
#include <signal.h>
#include <stdarg.h>
#include <stdio.h>
#include <stdlib.h>
#include <sys/stat.h>
#include <sys/types.h>
#include <unistd.h>

static int calls;

static int is_now(const char *variable)
{
    const char *number = getenv(variable);
    return number && atoi(number) == calls;
}

static void tell(const char *call, const char *name, const char *more)
{
    const char *trace = getenv("TRACE");
    if (trace)
        dprintf(atoi(trace), "%s\t%s\t%s\n", call, name, more);
}

static void tell_file(const char *call, int file)
{
    char link[32], name[PATH_MAX], size[32];
    struct stat now = {.st_size = -1};
    snprintf(link, sizeof link, "/proc/self/fd/%d", file);
    ssize_t length = readlink(link, name, sizeof name - 1);
    name[length > 0 ? length : 0] = 0;
    fstat(file, &now);
    snprintf(size, sizeof size, "%lld", (long long)now.st_size);
    tell(call, name, size);
}

static int fails_here(void)
{
    if (!is_now("FAIL"))
        return 0;
    tell("fails", "", "");
    errno = EIO;
    return 1;
}

/* At the start of a call: counts it. Whether it is to fail. */
static int cut_here(void)
{
    calls++;
    if (is_now("CUT"))
        raise(SIGKILL);
    return fails_here();
}

/* A call that has nothing of its own to it: its name, its operands, how they are handed on, and how it is told of. */
#define CUT_BEFORE(name, operands, given, telling)    \
    int __real_##name operands;                       \
    int __wrap_##name operands;                       \
    int __wrap_##name operands                        \
    {                                                 \
        int done = cut_here() ? -1 : __real_##name given; \
        if (done == 0)                                \
            telling;                                  \
        return done;                                  \
    }
#define NOT_TOLD (void)0

CUT_BEFORE(fchmod, (int file, mode_t mode), (file, mode), NOT_TOLD)
CUT_BEFORE(fchown, (int file, uid_t owner, gid_t group), (file, owner, group), NOT_TOLD)
CUT_BEFORE(fsync, (int file), (file), tell_file("fsync", file))
CUT_BEFORE(syncfs, (int file), (file), tell_file("syncfs", file))
CUT_BEFORE(ftruncate, (int file, off_t length), (file, length), tell_file("ftruncate", file))
CUT_BEFORE(rename, (const char *from, const char *to), (from, to), tell("rename", from, to))
CUT_BEFORE(renameat2, (int at, const char *from, int there, const char *to, unsigned how), (at, from, there, to, how),
           tell("rename", from, to))
CUT_BEFORE(unlink, (const char *path), (path), NOT_TOLD)
CUT_BEFORE(flock, (int file, int how), (file, how), NOT_TOLD)

int __real_open(const char *, int, ...);
ssize_t __real_read(int, void *, size_t);
ssize_t __real_write(int, const void *, size_t);
int __real_close(int);

int __wrap_open(const char *path, int flags, ...)
{
    va_list rest;
    va_start(rest, flags);
    mode_t mode = flags & O_CREAT ? va_arg(rest, mode_t) : 0;
    va_end(rest);
    return cut_here() ? -1 : __real_open(path, flags, mode);
}

ssize_t __wrap_read(int file, void *bytes, size_t length)
{
    return cut_here() ? -1 : __real_read(file, bytes, length);
}

/* Of a write that is cut half is done. */
ssize_t __wrap_write(int file, const void *bytes, size_t length)
{
    calls++;
    if (is_now("CUT")) {
        __real_write(file, bytes, length / 2);
        raise(SIGKILL);
    }
    ssize_t written = fails_here() ? -1 : __real_write(file, bytes, length);
    tell_file("write", file);
    return written;
}

/* A close that fails has closed its file all the same. */
int __wrap_close(int file)
{
    int fails = cut_here(), done = __real_close(file);
    return fails ? -1 : done;
}

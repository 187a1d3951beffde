/* A library to preload (LD_PRELOAD) that counts a program's calls on files, writes each into a log, and ends the program at one
 * of them or lets it fail: what a power cut, a full disk or a bad one does to a program that saves.
 *
 *     CALLS_LOG    a file to which each call is appended as a line: its name and the path that it is about
 *     CALLS_PLAN   what is to happen at which call, counted from 1: `7 before`, `7 short 8 28`
 *
 * before, after: the program ends there, with status 86. middle: a write takes half of its bytes, and the program ends. short: it
 * takes half of them and says so. A number: the call does nothing and fails with that errno.
 */
#define _GNU_SOURCE
#include <errno.h>
#include <fcntl.h>
#include <stdarg.h>
#include <stdio.h>
#include <stdlib.h>
#include <string.h>
#include <sys/syscall.h>
#include <unistd.h>

enum { GO_ON = 0, END_AFTER = -1, END_IN_THE_MIDDLE = -2, TAKE_HALF = -3, STATUS = 86 };

/* Appends a call to the log; the calls made here are not counted. */
static void note(const char *name, const char *path)
{
    char line[8192];
    const char *log = getenv("CALLS_LOG");
    int length = snprintf(line, sizeof line, "%s %s\n", name, path);
    if (log == NULL)
        return;
    long file = syscall(SYS_openat, AT_FDCWD, log, O_WRONLY | O_CREAT | O_APPEND, 0600);
    syscall(SYS_write, file, line, (size_t)length);
    syscall(SYS_close, file);
}

/* What the plan says of the n-th call. */
static int planned(int n)
{
    const char *plan = getenv("CALLS_PLAN");
    char how[16];
    for (int at, used; plan != NULL && sscanf(plan, "%d %15s%n", &at, how, &used) == 2; plan += used)
        if (at == n)
            return strcmp(how, "before") == 0   ? (_exit(STATUS), 0)
                   : strcmp(how, "after") == 0  ? END_AFTER
                   : strcmp(how, "middle") == 0 ? END_IN_THE_MIDDLE
                   : strcmp(how, "short") == 0  ? TAKE_HALF
                                                : atoi(how);
    return GO_ON;
}

/* Counts a call that is about a path; says what is to happen. */
static int begin(const char *name, const char *path)
{
    static int calls = 0;
    int reason = errno;
    note(name, path);
    int how = planned(++calls);
    errno = how > 0 ? how : reason;
    return how;
}

/* The same for a call that is about an open file. */
static int begin_at(const char *name, int file)
{
    char link[64], path[4096];
    snprintf(link, sizeof link, "/proc/self/fd/%d", file);
    ssize_t length = readlink(link, path, sizeof path - 1);
    path[length < 0 ? 0 : length] = 0;
    return begin(name, path);
}

/* A call's result, once it is made. */
static long end(int how, long result)
{
    if (how == END_AFTER || how == END_IN_THE_MIDDLE)
        _exit(STATUS);
    return result;
}

static int opens(int directory, const char *path, int flags, unsigned mode)
{
    int how = begin("open", path);
    return how > 0 ? -1 : (int)end(how, syscall(SYS_openat, directory, path, flags, mode));
}

/* The mode is the last argument of an open that may create. */
#define OPENS(directory)                                             \
    va_list rest;                                                    \
    va_start(rest, flags);                                           \
    unsigned mode = (flags & O_CREAT) ? va_arg(rest, unsigned) : 0;  \
    va_end(rest);                                                    \
    return opens(directory, path, flags, mode)

int open(const char *path, int flags, ...) { OPENS(AT_FDCWD); }
int open64(const char *path, int flags, ...) { OPENS(AT_FDCWD); }
int openat(int directory, const char *path, int flags, ...) { OPENS(directory); }
int openat64(int directory, const char *path, int flags, ...) { OPENS(directory); }
int creat(const char *path, mode_t mode) { return opens(AT_FDCWD, path, O_CREAT | O_WRONLY | O_TRUNC, mode); }
int creat64(const char *path, mode_t mode) { return opens(AT_FDCWD, path, O_CREAT | O_WRONLY | O_TRUNC, mode); }

ssize_t write(int file, const void *bytes, size_t length)
{
    int how = begin_at("write", file);
    if (how == END_IN_THE_MIDDLE || how == TAKE_HALF)
        length = (length + 1) / 2;
    return how > 0 ? -1 : end(how, syscall(SYS_write, file, bytes, length));
}

/* A call on an open file, and one on paths: its name, and the system's call with its arguments. */
#define ON_FILE(name, parameters, ...)                                    \
    int name parameters                                                   \
    {                                                                     \
        int how = begin_at(#name, file);                                  \
        return how > 0 ? -1 : (int)end(how, syscall(__VA_ARGS__));        \
    }
#define ON_PATH(name, parameters, ...)                                    \
    int name parameters                                                   \
    {                                                                     \
        int how = begin(#name, path);                                     \
        return how > 0 ? -1 : (int)end(how, syscall(__VA_ARGS__));        \
    }

ON_FILE(fsync, (int file), SYS_fsync, file)
ON_FILE(fdatasync, (int file), SYS_fdatasync, file)
ON_FILE(close, (int file), SYS_close, file)
ON_FILE(flock, (int file, int what), SYS_flock, file, what)
ON_FILE(fchmod, (int file, mode_t mode), SYS_fchmod, file, mode)
ON_FILE(ftruncate, (int file, off_t length), SYS_ftruncate, file, length)
ON_FILE(ftruncate64, (int file, off64_t length), SYS_ftruncate, file, length)
ON_PATH(unlink, (const char *path), SYS_unlink, path)
ON_PATH(unlinkat, (int directory, const char *path, int flags), SYS_unlinkat, directory, path, flags)
ON_PATH(rename, (const char *path, const char *to), SYS_rename, path, to)
ON_PATH(renameat, (int from, const char *path, int in, const char *to), SYS_renameat, from, path, in, to)
ON_PATH(renameat2, (int from, const char *path, int in, const char *to, unsigned flags), SYS_renameat2, from, path, in, to, flags)

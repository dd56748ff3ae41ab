/* Fails calls of the system to the program in which it is preloaded. CALL names a call, as `read`, NUMBER which of these fails, from 1, or 0 for
   each, and HOW the way: a number is that error, `one` passes on at most one byte, and `none` passes on nothing and says that it took nothing.
   Where a path is opened that ends with VANISHING, the folder or file VANISHED is renamed before. At the end the counts of all calls
   are written into the file that COUNTED names. */
#define _GNU_SOURCE
#include <dlfcn.h>
#include <errno.h>
#include <fcntl.h>
#include <stdarg.h>
#include <stdio.h>
#include <stdlib.h>
#include <string.h>
#include <sys/stat.h>
#include <sys/syscall.h>
#include <unistd.h>

enum call { OPEN, OPENAT, LIST, READ, STATX, WRITE, CALLS };
enum way { AS_EVER, FAILS, ONE, NONE };

static const char *const names[CALLS] = { "open", "openat", "getdents64", "read", "statx", "write" };
static unsigned long counts[CALLS];

/* Counts the call, and says how it is to go. */
static enum way way_of(enum call call)
{
    const char *name = getenv("CALL"), *number = getenv("NUMBER"), *how = getenv("HOW");
    unsigned long at = __atomic_add_fetch(&counts[call], 1, __ATOMIC_SEQ_CST);
    if (!name || !number || !how || strcmp(name, names[call]))
        return AS_EVER;
    if (strtoul(number, NULL, 10) != at && strcmp(number, "0"))
        return AS_EVER;
    if (!strcmp(how, "one"))
        return ONE;
    if (!strcmp(how, "none"))
        return NONE;
    errno = atoi(how);
    return FAILS;
}

static void vanish(const char *path)
{
    const char *end = getenv("VANISHING"), *old = getenv("VANISHED");
    char new[4096];
    if (!end || !old || strlen(path) < strlen(end) || strcmp(path + strlen(path) - strlen(end), end))
        return;
    snprintf(new, sizeof new, "%s.gone", old);
    rename(old, new);
}

/* The function that would be called without this file. */
#define REAL(name) \
    static __typeof__(&name) real; \
    if (!real) \
        real = (__typeof__(&name))dlsym(RTLD_NEXT, #name)

int open(const char *path, int flags, ...)
{
    va_list more;
    mode_t mode;
    REAL(open);
    va_start(more, flags);
    mode = va_arg(more, mode_t);
    va_end(more);
    vanish(path);
    return way_of(OPEN) == AS_EVER ? real(path, flags, mode) : -1;
}

int openat(int folder, const char *path, int flags, ...)
{
    va_list more;
    mode_t mode;
    REAL(openat);
    va_start(more, flags);
    mode = va_arg(more, mode_t);
    va_end(more);
    vanish(path);
    return way_of(OPENAT) == AS_EVER ? real(folder, path, flags, mode) : -1;
}

ssize_t getdents64(int file, void *block, size_t size)
{
    REAL(getdents64);
    return way_of(LIST) == AS_EVER ? real(file, block, size) : -1;
}

int statx(int folder, const char *restrict path, int flags, unsigned mask, struct statx *restrict found)
{
    REAL(statx);
    return way_of(STATX) == AS_EVER ? real(folder, path, flags, mask, found) : -1;
}

ssize_t read(int file, void *block, size_t size)
{
    enum way way = way_of(READ);
    REAL(read);
    return way == AS_EVER ? real(file, block, size) : way == ONE ? real(file, block, size > 0) : way == NONE ? 0 : -1;
}

ssize_t write(int file, const void *block, size_t size)
{
    enum way way = way_of(WRITE);
    REAL(write);
    return way == AS_EVER ? real(file, block, size) : way == ONE ? real(file, block, size > 0) : way == NONE ? 0 : -1;
}

__attribute__((destructor)) static void finish(void)
{
    const char *path = getenv("COUNTED");
    char line[200];
    int at = 0, call, file;
    for (call = 0; call < CALLS; call++)
        at += snprintf(line + at, sizeof line - at, "%s %lu\n", names[call], counts[call]);
    __typeof__(&open) opened = (__typeof__(&open))dlsym(RTLD_NEXT, "open");
    __typeof__(&write) written = (__typeof__(&write))dlsym(RTLD_NEXT, "write");
    if (!path || (file = opened(path, O_WRONLY | O_CREAT | O_TRUNC, 0600)) < 0)
        return;
    if (written(file, line, at) < 0)
        syscall(SYS_exit_group, 99);
    close(file);
}

/* A program that has threads ends by this call, after which no destructor runs. */
void _exit(int status)
{
    finish();
    syscall(SYS_exit_group, status);
    __builtin_unreachable();
}

/* Refuses memory to the program in which it is preloaded: counts its allocations from 1, and refuses the one of the number that
   REFUSED names, or with a + behind the number also all that follow. At the end the count is written into the file that COUNTED names.
   Programs that aren't called as ONLY says, as those that start it, are left alone. */
#define _GNU_SOURCE
#include <dlfcn.h>
#include <errno.h>
#include <fcntl.h>
#include <stdlib.h>
#include <string.h>
#include <sys/syscall.h>
#include <unistd.h>

static unsigned long refused, count;
static int is_tried, all_from;

static int is_refused(void)
{
    unsigned long number = __atomic_add_fetch(&count, 1, __ATOMIC_SEQ_CST);
    if (refused == 0 || (number != refused && !(all_from && number > refused)))
        return 0;
    errno = ENOMEM;
    return 1;
}

/* The function that would be called without this file. */
#define REAL(name) \
    static __typeof__(&name) real; \
    if (!real) \
        real = (__typeof__(&name))dlsym(RTLD_NEXT, #name)

void *malloc(size_t size)
{
    REAL(malloc);
    return is_refused() ? NULL : real(size);
}

void *calloc(size_t many, size_t size)
{
    REAL(calloc);
    return is_refused() ? NULL : real(many, size);
}

void *realloc(void *block, size_t size)
{
    REAL(realloc);
    return size && is_refused() ? NULL : real(block, size);
}

void *aligned_alloc(size_t alignment, size_t size)
{
    REAL(aligned_alloc);
    return is_refused() ? NULL : real(alignment, size);
}

int posix_memalign(void **block, size_t alignment, size_t size)
{
    REAL(posix_memalign);
    return is_refused() ? ENOMEM : real(block, alignment, size);
}

__attribute__((constructor)) static void begin(void)
{
    const char *text = getenv("REFUSED"), *only = getenv("ONLY");
    char *end = NULL;
    is_tried = !only || !strcmp(only, program_invocation_short_name);
    count = 0;
    if (text && is_tried) {
        refused = strtoul(text, &end, 10);
        all_from = *end == '+';
    }
}

__attribute__((destructor)) static void finish(void)
{
    const char *path = getenv("COUNTED");
    char digits[24];
    int at = sizeof digits, file;
    unsigned long left = __atomic_load_n(&count, __ATOMIC_SEQ_CST);
    if (!is_tried || !path || (file = open(path, O_WRONLY | O_CREAT | O_TRUNC, 0600)) < 0)
        return;
    do
        digits[--at] = '0' + left % 10;
    while (left /= 10);
    if (write(file, digits + at, sizeof digits - at) < 0)
        syscall(SYS_exit_group, 99);
    close(file);
}

/* A program that has threads ends by this call, after which no destructor runs. */
void _exit(int status)
{
    finish();
    syscall(SYS_exit_group, status);
    __builtin_unreachable();
}

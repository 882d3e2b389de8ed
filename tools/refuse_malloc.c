/* Loaded before the C library: one call of malloc or realloc is refused, or it and all after it. tools/refuse-memory
   builds this and says which by the environment: REFUSE=N, the call counted from 1, and REFUSE_ON=1, also all after it.
   Where COUNT names a file, the number of calls is written there at the end. */
#define _GNU_SOURCE
#include <dlfcn.h>
#include <errno.h>
#include <stdio.h>
#include <stdlib.h>
#include <sys/syscall.h>
#include <unistd.h>

static long calls;

static int is_refused(void)
{
    const char *first = getenv("REFUSE");
    long call = __atomic_add_fetch(&calls, 1, __ATOMIC_RELAXED);
    if (!first || call < atol(first) || (call > atol(first) && !getenv("REFUSE_ON")))
        return 0;
    errno = ENOMEM;
    return 1;
}

void *malloc(size_t size)
{
    static void *(*next)(size_t);
    if (!next)
        next = (void *(*)(size_t))dlsym(RTLD_NEXT, "malloc");
    return is_refused() ? NULL : next(size);
}

void *realloc(void *old, size_t size)
{
    static void *(*next)(void *, size_t);
    if (!next)
        next = (void *(*)(void *, size_t))dlsym(RTLD_NEXT, "realloc");
    return is_refused() ? NULL : next(old, size);
}

static void tell(void)
{
    long counted = calls;
    const char *path = getenv("COUNT");
    FILE *file = path ? fopen(path, "w") : NULL;
    if (file) {
        fprintf(file, "%ld\n", counted);
        fclose(file);
    }
}

/* The program's way out. */
void _exit(int status)
{
    tell();
    syscall(SYS_exit_group, status);
    __builtin_unreachable();
}

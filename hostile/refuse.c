/*
 * Refuses calls of a program to the C library, so that one can see how it ends. It is loaded before that library:
 *
 *     LD_PRELOAD=./refuse.so REFUSE=memory FIRST=7 LAST=7 program..
 *
 * REFUSE is memory, read, write or thread. Of these calls the ones numbered from FIRST to LAST fail as the system lets
 * them fail, each with a line on standard error. All others go on to the library.
 */
#define _GNU_SOURCE
#include <dlfcn.h>
#include <errno.h>
#include <pthread.h>
#include <stddef.h>
#include <stdlib.h>
#include <string.h>
#include <sys/syscall.h>
#include <sys/types.h>
#include <unistd.h>

extern void *__libc_malloc(size_t size);
extern void *__libc_calloc(size_t count, size_t size);
extern void *__libc_realloc(void *old, size_t size);
extern void *__libc_memalign(size_t alignment, size_t size);

typedef int create(pthread_t *, const pthread_attr_t *, void *(*)(void *), void *);

static const char *kind;
static unsigned long first, last, calls;
static create *create_thread;

/* The limits are read once, before the program begins. */
__attribute__((constructor)) static void begin(void)
{
    const char *from = getenv("FIRST"), *to = getenv("LAST");
    first = from ? strtoul(from, NULL, 10) : 0;
    last = to ? strtoul(to, NULL, 10) : 0;
    create_thread = (create *)dlsym(RTLD_NEXT, "pthread_create");
    kind = getenv("REFUSE");
}

/* Whether this call, of this kind, is one of those that fail. */
static int is_refused(const char *of, int error)
{
    unsigned long number;
    if (kind == NULL || strcmp(kind, of) != 0)
        return 0;
    number = __atomic_add_fetch(&calls, 1, __ATOMIC_SEQ_CST);
    if (number < first || number > last)
        return 0;
    syscall(SYS_write, 2, "refused\n", (size_t)8);
    errno = error;
    return 1;
}

void *malloc(size_t size)
{
    return is_refused("memory", ENOMEM) ? NULL : __libc_malloc(size);
}

void *calloc(size_t count, size_t size)
{
    return is_refused("memory", ENOMEM) ? NULL : __libc_calloc(count, size);
}

void *realloc(void *old, size_t size)
{
    return is_refused("memory", ENOMEM) ? NULL : __libc_realloc(old, size);
}

void *aligned_alloc(size_t alignment, size_t size)
{
    return is_refused("memory", ENOMEM) ? NULL : __libc_memalign(alignment, size);
}

ssize_t read(int file, void *bytes, size_t count)
{
    return is_refused("read", EIO) ? -1 : syscall(SYS_read, file, bytes, count);
}

ssize_t write(int file, const void *bytes, size_t count)
{
    return is_refused("write", EIO) ? -1 : syscall(SYS_write, file, bytes, count);
}

int pthread_create(pthread_t *thread, const pthread_attr_t *how, void *(*run)(void *), void *with)
{
    return is_refused("thread", EAGAIN) ? EAGAIN : create_thread(thread, how, run, with);
}

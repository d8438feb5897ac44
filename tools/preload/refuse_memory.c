/* Preloaded: refuses one request, the one whose number REFUSE has, and says so on descriptor 9. A request asks for
 * memory or for a thread; the memory that the C library takes to start a thread is a request of its own. Requests are
 * numbered over all threads, so where several ask at once a number may name another request in another run. */
#define _GNU_SOURCE
#include <dlfcn.h>
#include <errno.h>
#include <pthread.h>
#include <stdatomic.h>
#include <stddef.h>
#include <stdlib.h>
#include <unistd.h>

extern void *__libc_malloc(size_t size);
extern void *__libc_calloc(size_t count, size_t size);
extern void *__libc_realloc(void *old, size_t size);
extern void *__libc_memalign(size_t align, size_t size);

static atomic_ulong requests;

/* errno is then what a refusal of memory leaves, which pthread_create rests on. */
static int is_refused(void)
{
    const char *number = getenv("REFUSE");
    if (!number || atomic_fetch_add(&requests, 1) + 1 != strtoul(number, NULL, 10) || write(9, "refused\n", 8) != 8)
        return 0;
    errno = ENOMEM;
    return 1;
}

void *malloc(size_t size)
{
    return is_refused() ? NULL : __libc_malloc(size);
}

void *calloc(size_t count, size_t size)
{
    return is_refused() ? NULL : __libc_calloc(count, size);
}

void *realloc(void *old, size_t size)
{
    return is_refused() ? NULL : __libc_realloc(old, size);
}

void *memalign(size_t align, size_t size)
{
    return is_refused() ? NULL : __libc_memalign(align, size);
}

void *aligned_alloc(size_t align, size_t size)
{
    return memalign(align, size);
}

int posix_memalign(void **block, size_t align, size_t size)
{
    *block = memalign(align, size);
    return *block ? 0 : ENOMEM;
}

int pthread_create(pthread_t *thread, const pthread_attr_t *attributes, void *(*run)(void *), void *argument)
{
    if (is_refused())
        return EAGAIN;
    int (*start)(pthread_t *, const pthread_attr_t *, void *(*)(void *), void *) = dlsym(RTLD_NEXT, "pthread_create");
    return start(thread, attributes, run, argument);
}

/*
 * A preload library that makes requests for memory and for threads fail, so that a built program shows what it does then.
 *
 *   REFUSE_AT=N     the Nth counted request fails. 0, or none: only counts
 *   REFUSE_HOW=on   all counted requests from the Nth on fail. Otherwise the Nth alone
 *   REFUSE_ALL=1    counts from the start of the process. Otherwise between the program's two marks alone
 *   REFUSE_TOLD=F   keeps three numbers in the file F, eight bytes each: failed requests, counted requests, and marks
 *                   from which requests count.
 *                   They are right at any time, however the program ends
 *
 * A mark is a request of an odd size that nothing else asks for. It fails, as the program expects.
 */
#define _GNU_SOURCE
#include <dlfcn.h>
#include <errno.h>
#include <fcntl.h>
#include <pthread.h>
#include <stdatomic.h>
#include <stddef.h>
#include <stdlib.h>
#include <string.h>
#include <sys/mman.h>
#include <unistd.h>

#define COUNTS_FROM_HERE ((size_t)1000000000007)
#define COUNTS_TO_HERE ((size_t)1000000000039)

extern void *__libc_malloc(size_t);
extern void *__libc_calloc(size_t, size_t);
extern void *__libc_realloc(void *, size_t);
extern void *__libc_memalign(size_t, size_t);

struct told {
    atomic_ulong refused;
    atomic_ulong counted;
    atomic_ulong marks;
};

static struct told unshared;
static struct told *told = &unshared;
static atomic_int is_counting;
static unsigned long at;
static int goes_on;
static int (*create_thread)(pthread_t *, const pthread_attr_t *, void *(*)(void *), void *);

/* Keeps the numbers in a file from here on. */
static void tell_in(const char *name)
{
    int file = open(name, O_RDWR | O_CREAT | O_TRUNC | O_CLOEXEC, 0600);
    void *shared = MAP_FAILED;
    if (file >= 0 && ftruncate(file, sizeof *told) == 0)
        shared = mmap(NULL, sizeof *told, PROT_READ | PROT_WRITE, MAP_SHARED, file, 0);
    if (shared == MAP_FAILED)
        _exit(99);
    told = shared;
    close(file);
}

__attribute__((constructor)) static void begin(void)
{
    const char *number = getenv("REFUSE_AT");
    const char *how = getenv("REFUSE_HOW");
    const char *file = getenv("REFUSE_TOLD");
    at = number ? strtoul(number, NULL, 10) : 0;
    goes_on = how && strcmp(how, "on") == 0;
    create_thread = dlsym(RTLD_NEXT, "pthread_create");
    if (file)
        tell_in(file);
    atomic_store(&is_counting, getenv("REFUSE_ALL") != NULL);
}

/* Whether the request fails: a mark, or one that is to fail. */
static int is_refused(size_t size)
{
    unsigned long number;
    if (size == COUNTS_FROM_HERE || size == COUNTS_TO_HERE) {
        atomic_fetch_add(&told->marks, size == COUNTS_FROM_HERE);
        atomic_store(&is_counting, size == COUNTS_FROM_HERE);
        errno = ENOMEM;
        return 1;
    }
    if (!atomic_load(&is_counting))
        return 0;
    number = atomic_fetch_add(&told->counted, 1) + 1;
    if (at == 0 || number < at || (number > at && !goes_on))
        return 0;
    atomic_fetch_add(&told->refused, 1);
    errno = ENOMEM;
    return 1;
}

void *malloc(size_t size)
{
    return is_refused(size) ? NULL : __libc_malloc(size);
}

void *calloc(size_t count, size_t size)
{
    return is_refused(count * size) ? NULL : __libc_calloc(count, size);
}

void *realloc(void *old, size_t size)
{
    return is_refused(size) ? NULL : __libc_realloc(old, size);
}

void *aligned_alloc(size_t alignment, size_t size)
{
    return is_refused(size) ? NULL : __libc_memalign(alignment, size);
}

int posix_memalign(void **out, size_t alignment, size_t size)
{
    void *found = is_refused(size) ? NULL : __libc_memalign(alignment, size);
    if (!found)
        return ENOMEM;
    *out = found;
    return 0;
}

int pthread_create(pthread_t *thread, const pthread_attr_t *attributes, void *(*start)(void *), void *with)
{
    return is_refused(0) ? EAGAIN : create_thread(thread, attributes, start, with);
}

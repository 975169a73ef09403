/* Refuses one growth of a program: the call of malloc, realloc or pthread_create whose number is in REFUSE, or the call of
 * pthread_create whose number is in REFUSE_START, counted over all threads. Loaded by LD_PRELOAD. A byte is written to the
 * descriptor in REFUSED_TO when it was refused. */
#define _GNU_SOURCE
#include <dlfcn.h>
#include <errno.h>
#include <pthread.h>
#include <stdatomic.h>
#include <stdlib.h>
#include <unistd.h>

extern void *__libc_malloc(size_t size);
extern void *__libc_realloc(void *block, size_t size);

/* Calls that are counted, and the number of the one that is refused, 0 for none. */
struct count {
    atomic_long calls;
    long refused;
};

static struct count growths, starts;
static int refused_to;

static void begin(struct count *count, const char *refused) {
    atomic_store(&count->calls, 0);
    count->refused = refused ? atol(refused) : 0;
}

__attribute__((constructor)) static void start(void) {
    const char *to = getenv("REFUSED_TO");
    refused_to = to ? atoi(to) : -1;
    begin(&growths, getenv("REFUSE"));
    begin(&starts, getenv("REFUSE_START"));
}

static int is_refused(struct count *count) {
    if (atomic_fetch_add(&count->calls, 1) + 1 != count->refused) return 0;
    if (write(refused_to, "x", 1) != 1) abort();
    return 1;
}

void *malloc(size_t size) {
    if (!is_refused(&growths)) return __libc_malloc(size);
    errno = ENOMEM;
    return NULL;
}

void *realloc(void *block, size_t size) {
    if (!is_refused(&growths)) return __libc_realloc(block, size);
    errno = ENOMEM;
    return NULL;
}

int pthread_create(pthread_t *thread, const pthread_attr_t *attributes, void *(*run)(void *), void *argument) {
    int (*create)(pthread_t *, const pthread_attr_t *, void *(*)(void *), void *) = dlsym(RTLD_NEXT, "pthread_create");
    return is_refused(&growths) || is_refused(&starts) ? EAGAIN : create(thread, attributes, run, argument);
}

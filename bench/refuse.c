// Refuses memory or the start of a thread, for memory.py: a library that is loaded before the C library.
// The environment says what is refused:
//   REFUSE_MEMORY=N  the Nth call of malloc or realloc
//   REFUSE_THREAD=N  the Nth call of pthread_create
//   REFUSE_ALL=1     each one behind it too
//   REFUSE_TOLD=FD   where a byte is written for each refusal
#define _GNU_SOURCE
#include <dlfcn.h>
#include <errno.h>
#include <pthread.h>
#include <stdatomic.h>
#include <stdbool.h>
#include <stdlib.h>
#include <unistd.h>

extern void *__libc_malloc(size_t size);
extern void *__libc_realloc(void *old, size_t size);

struct calls {
    unsigned long refused; // the number of the call that is refused, or 0 for none
    atomic_ulong made;
};

static struct calls memory;
static struct calls threads;
static bool all;
static int told = -1;

static unsigned long number(const char *name) {
    const char *text = getenv(name);
    return text ? strtoul(text, NULL, 10) : 0;
}

__attribute__((constructor)) static void begin(void) {
    all = number("REFUSE_ALL") != 0;
    told = getenv("REFUSE_TOLD") ? (int)number("REFUSE_TOLD") : -1;
    memory.refused = number("REFUSE_MEMORY");
    threads.refused = number("REFUSE_THREAD");
}

// Whether this call is refused. It counts it.
static bool refuses(struct calls *calls) {
    if (calls->refused == 0) {
        return false;
    }
    unsigned long n = atomic_fetch_add(&calls->made, 1) + 1;
    bool refused = n == calls->refused || (all && n > calls->refused);
    if (refused && told >= 0) {
        (void)!write(told, "r", 1);
    }
    return refused;
}

void *malloc(size_t size) {
    if (refuses(&memory)) {
        errno = ENOMEM;
        return NULL;
    }
    return __libc_malloc(size);
}

void *realloc(void *old, size_t size) {
    if (refuses(&memory)) {
        errno = ENOMEM;
        return NULL;
    }
    return __libc_realloc(old, size);
}

int pthread_create(pthread_t *thread, const pthread_attr_t *attributes, void *(*body)(void *), void *argument) {
    static int (*create)(pthread_t *, const pthread_attr_t *, void *(*)(void *), void *);
    if (refuses(&threads)) {
        return EAGAIN;
    }
    if (!create) {
        create = (int (*)(pthread_t *, const pthread_attr_t *, void *(*)(void *), void *))dlsym(RTLD_NEXT, "pthread_create");
    }
    return create(thread, attributes, body, argument);
}

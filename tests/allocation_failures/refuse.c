/* Preloaded into a program: makes exactly one allocation fail, and then writes one byte to file descriptor 9. Environment
   variables say which allocation fails:
     REFUSE_REQUEST   its number, counted from 1 over all allocations that count
     REFUSE_THREAD    only the allocations of this thread count; 0 is the first thread, and the others are numbered as they
                      are started. Without it, the allocations of all threads count
     REFUSE_SIZE      only allocations of at least this many bytes count */
#define _GNU_SOURCE
#include <dlfcn.h>
#include <pthread.h>
#include <stddef.h>
#include <stdlib.h>
#include <unistd.h>

void *__libc_malloc(size_t size);
void *__libc_realloc(void *block, size_t size);

static long requests;
static long threads;
static __thread long thread;

static long number_of(const char *name, long otherwise) {
    const char *value = getenv(name);
    return value == NULL ? otherwise : atol(value);
}

static int is_refused(size_t size) {
    if (size < (size_t)number_of("REFUSE_SIZE", 0) || thread != number_of("REFUSE_THREAD", thread)) {
        return 0;
    }
    if (__atomic_add_fetch(&requests, 1, __ATOMIC_SEQ_CST) != number_of("REFUSE_REQUEST", 0)) {
        return 0;
    }
    (void)!write(9, "r", 1);
    return 1;
}

void *malloc(size_t size) {
    return is_refused(size) ? NULL : __libc_malloc(size);
}

void *realloc(void *block, size_t size) {
    return is_refused(size) ? NULL : __libc_realloc(block, size);
}

/* What a thread is started with: its number, its function, and the argument. */
struct start {
    long number;
    void *(*body)(void *);
    void *given;
};

static void *started(void *given) {
    struct start start = *(struct start *)given;
    free(given);
    thread = start.number;
    return start.body(start.given);
}

typedef int start_thread(pthread_t *, const pthread_attr_t *, void *(*)(void *), void *);

int pthread_create(pthread_t *id, const pthread_attr_t *how, void *(*body)(void *), void *given) {
    struct start *start = __libc_malloc(sizeof *start);
    *start = (struct start){__atomic_add_fetch(&threads, 1, __ATOMIC_SEQ_CST), body, given};
    return ((start_thread *)dlsym(RTLD_NEXT, "pthread_create"))(id, how, started, start);
}

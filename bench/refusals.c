/* Refuses one request for memory, or threads, to the program that this library is preloaded into.
 *
 * REFUSE_REQUEST=N   the N-th request for memory from the start of the program, counted over all threads
 * REFUSE_THREAD=N    the N-th thread; 0 stands for every one
 *
 * Each refusal writes a letter to the descriptor REFUSED_TO, `m` for memory and `t` for a thread, so that whoever
 * counts knows when N passed the last one. The requests are those of glibc's family of malloc: what it takes itself
 * to start a thread is among them.
 */
#define _GNU_SOURCE
#include <dlfcn.h>
#include <errno.h>
#include <pthread.h>
#include <stdatomic.h>
#include <stddef.h>
#include <stdlib.h>
#include <unistd.h>

void *__libc_malloc(size_t size);
void *__libc_calloc(size_t count, size_t size);
void *__libc_realloc(void *old, size_t size);
void *__libc_memalign(size_t align, size_t size);

typedef int start_thread(pthread_t *, const pthread_attr_t *, void *(*)(void *), void *);

/* -1 until `begin` has run, and where the variable isn't there. */
static long request_to_refuse = -1, thread_to_refuse = -1, refused_to = -1;
static atomic_long requests, threads;
static start_thread *start;

static long number_in(const char *name) {
    const char *text = getenv(name);
    return text ? atol(text) : -1;
}

__attribute__((constructor)) static void begin(void) {
    start = (start_thread *)dlsym(RTLD_NEXT, "pthread_create");
    refused_to = number_in("REFUSED_TO");
    thread_to_refuse = number_in("REFUSE_THREAD");
    request_to_refuse = number_in("REFUSE_REQUEST");
}

static void tell(const char *letter) {
    if (refused_to >= 0 && write((int)refused_to, letter, 1) != 1) abort();
}

static int is_refused(void) {
    if (request_to_refuse < 0 || atomic_fetch_add(&requests, 1) + 1 != request_to_refuse) return 0;
    tell("m");
    errno = ENOMEM;
    return 1;
}

void *malloc(size_t size) { return is_refused() ? NULL : __libc_malloc(size); }

void *calloc(size_t count, size_t size) { return is_refused() ? NULL : __libc_calloc(count, size); }

void *realloc(void *old, size_t size) { return is_refused() ? NULL : __libc_realloc(old, size); }

void *memalign(size_t align, size_t size) { return is_refused() ? NULL : __libc_memalign(align, size); }

void *aligned_alloc(size_t align, size_t size) { return memalign(align, size); }

int posix_memalign(void **place, size_t align, size_t size) {
    void *made = memalign(align, size);
    if (made) *place = made;
    return made ? 0 : ENOMEM;
}

int pthread_create(pthread_t *thread, const pthread_attr_t *how, void *(*body)(void *), void *with) {
    if (thread_to_refuse >= 0) {
        long number = atomic_fetch_add(&threads, 1) + 1;
        if (thread_to_refuse == 0 || thread_to_refuse == number) {
            tell("t");
            return EAGAIN;
        }
    }
    return start(thread, how, body, with);
}

// Refuses what a program asks of the system, at a call of a chosen number. reference/refuse.py builds it and loads it before libc.
//
// The file that REFUSE names is mapped as a `struct Plan`. Each counter grows with each call of its kind; where it comes to the number
// beside it, that call is refused, and where `from` is not 0 each one after it too. A read or a write moves at most `piece` bytes.
#define _GNU_SOURCE
#include <dlfcn.h>
#include <errno.h>
#include <fcntl.h>
#include <pthread.h>
#include <stdint.h>
#include <stdlib.h>
#include <sys/mman.h>
#include <unistd.h>

enum Kind { ALLOC, THREAD, READ, WRITE, KINDS };
static struct Plan {
    uint64_t refused[KINDS], calls[KINDS], from, piece, started, joined;
} none, *plan = &none;

#define REAL(name) ((__typeof__(&name))dlsym(RTLD_NEXT, #name))
extern void *__libc_malloc(size_t);
extern void *__libc_realloc(void *, size_t);

__attribute__((constructor)) static void begin(void) {
    const char *name = getenv("REFUSE");
    int file = name ? open(name, O_RDWR) : -1;
    if (file < 0) return;
    void *at = mmap(NULL, sizeof none, PROT_READ | PROT_WRITE, MAP_SHARED, file, 0);
    close(file);
    if (at != MAP_FAILED) plan = at;
}

static void count(uint64_t *counter) { __atomic_add_fetch(counter, 1, __ATOMIC_SEQ_CST); }

static int is_refused(enum Kind kind) {
    uint64_t call = __atomic_add_fetch(&plan->calls[kind], 1, __ATOMIC_SEQ_CST), refused = plan->refused[kind];
    return refused && (call == refused || (plan->from && call > refused));
}

static size_t piece_of(size_t length) { return plan->piece && plan->piece < length ? plan->piece : length; }

void *malloc(size_t size) {
    if (!is_refused(ALLOC)) return __libc_malloc(size);
    errno = ENOMEM;
    return NULL;
}

void *realloc(void *at, size_t size) {
    if (!is_refused(ALLOC)) return __libc_realloc(at, size);
    errno = ENOMEM;
    return NULL;
}

int pthread_create(pthread_t *thread, const pthread_attr_t *with, void *(*begin)(void *), void *given) {
    if (is_refused(THREAD)) return EAGAIN;
    int error = REAL(pthread_create)(thread, with, begin, given);
    if (!error) count(&plan->started);
    return error;
}

int pthread_join(pthread_t thread, void **result) {
    int error = REAL(pthread_join)(thread, result);
    if (!error) count(&plan->joined);
    return error;
}

ssize_t read(int file, void *into, size_t length) {
    if (!is_refused(READ)) return REAL(read)(file, into, piece_of(length));
    errno = EIO;
    return -1;
}

ssize_t write(int file, const void *bytes, size_t length) {
    if (!is_refused(WRITE)) return REAL(write)(file, bytes, piece_of(length));
    errno = EIO;
    return -1;
}

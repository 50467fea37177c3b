/* Refuses one call of a program that is already built: a preloaded library for tools/sweeps.py.

       cc -O2 -shared -fPIC -o refuse.so refuse.c -ldl

   REFUSED says which kind of call (memory, thread, read or write), AT the number of the first one that is refused, from 1;
   with ON=1 all later ones are refused, too. A fifth kind, beside, is memory for other threads than the first: once such a
   call is refused, its thread gets none any more, whereas the others go on. COUNT names a file to which the number of calls
   of that kind is written at the end. */
#define _GNU_SOURCE
#include <dlfcn.h>
#include <errno.h>
#include <fcntl.h>
#include <pthread.h>
#include <stdio.h>
#include <stdlib.h>
#include <sys/syscall.h>
#include <unistd.h>

static long at = -1, calls = 0;
static int goes_on = 0;
static char kind = 0;
static __thread int is_without_memory = 0;

static void look(void) {
    if (at >= 0) return;
    const char *refused = getenv("REFUSED"), *number = getenv("AT"), *on = getenv("ON");
    kind = refused ? refused[0] : 0;
    goes_on = on && on[0] == '1';
    at = number ? atol(number) : 0;
}

/* Whether this call of a kind is one that is refused. */
static int is_refused(char what) {
    look();
    if (kind != what) return 0;
    long number = __atomic_add_fetch(&calls, 1, __ATOMIC_SEQ_CST);
    return at > 0 && (number == at || (goes_on && number > at));
}

/* Whether this call for memory is one that is refused. */
static int is_memory_refused(void) {
    look();
    if (kind != 'b') return is_refused('m');
    if (syscall(SYS_gettid) == getpid()) return 0;
    is_without_memory |= is_refused('b');
    return is_without_memory;
}

#define NEXT(name) if (!next) next = dlsym(RTLD_NEXT, name)

void *malloc(size_t size) {
    static void *(*next)(size_t);
    NEXT("malloc");
    if (is_memory_refused()) { errno = ENOMEM; return 0; }
    return next(size);
}

void *realloc(void *old, size_t size) {
    static void *(*next)(void *, size_t);
    NEXT("realloc");
    if (is_memory_refused()) { errno = ENOMEM; return 0; }
    return next(old, size);
}

void *aligned_alloc(size_t unit, size_t size) {
    static void *(*next)(size_t, size_t);
    NEXT("aligned_alloc");
    if (is_memory_refused()) { errno = ENOMEM; return 0; }
    return next(unit, size);
}

int posix_memalign(void **to, size_t unit, size_t size) {
    static int (*next)(void **, size_t, size_t);
    NEXT("posix_memalign");
    return is_memory_refused() ? ENOMEM : next(to, unit, size);
}

int pthread_create(pthread_t *thread, const pthread_attr_t *how, void *(*run)(void *), void *given) {
    static int (*next)(pthread_t *, const pthread_attr_t *, void *(*)(void *), void *);
    NEXT("pthread_create");
    return is_refused('t') ? EAGAIN : next(thread, how, run, given);
}

ssize_t read(int file, void *to, size_t size) {
    static ssize_t (*next)(int, void *, size_t);
    NEXT("read");
    if (is_refused('r')) { errno = EIO; return -1; }
    return next(file, to, size);
}

ssize_t write(int file, const void *from, size_t size) {
    static ssize_t (*next)(int, const void *, size_t);
    NEXT("write");
    if (file == 1 && is_refused('w')) { errno = EIO; return -1; }
    return next(file, from, size);
}

/* The program's end, which runs no destructors. */
void _exit(int status) {
    const char *name = getenv("COUNT");
    long number = calls;
    FILE *file = name ? fopen(name, "w") : 0;
    if (file) { fprintf(file, "%ld\n", number); fclose(file); }
    syscall(SYS_exit_group, status);
    __builtin_unreachable();
}

// An allocator that refuses allocations of a program: that with the number REFUSED_AT, from 1, and with REFUSED_ON all
// after it too. Those that the C library makes for itself while it starts a thread are not counted. At the end it
// writes how many there were to the file REFUSED_COUNT. The start of a thread with the number REFUSED_START fails, and with
// REFUSED_ON each after it. A library beside it may say by `refuse` which allocation is refused, and where they are counted.
#define _GNU_SOURCE
#include <dlfcn.h>
#include <errno.h>
#include <pthread.h>
#include <stdatomic.h>
#include <stdio.h>
#include <stdlib.h>
#include <sys/syscall.h>
#include <unistd.h>

extern void *__libc_malloc(size_t);
extern void *__libc_calloc(size_t, size_t);
extern void *__libc_realloc(void *, size_t);
extern void *__libc_memalign(size_t, size_t);

static atomic_ulong counted;
static atomic_ulong *count = &counted;
static atomic_ulong starts;
static unsigned long at = 0, start = 0;
static int on = 0;
static __thread int inside = 0;

__attribute__((constructor)) static void begin(void) {
    const char *number = getenv("REFUSED_AT");
    at = number ? strtoul(number, NULL, 10) : 0;
    on = getenv("REFUSED_ON") != NULL;
    number = getenv("REFUSED_START");
    start = number ? strtoul(number, NULL, 10) : 0;
    atomic_store(count, 0);
}

void refuse(unsigned long number, int all_after, atomic_ulong *place) {
    at = number;
    on = all_after;
    count = place;
}

__attribute__((destructor)) static void end(void) {
    const char *path = getenv("REFUSED_COUNT");
    unsigned long many = atomic_load(count);
    at = 0;
    FILE *file = path ? fopen(path, "w") : NULL;
    if (file) {
        fprintf(file, "%lu\n", many);
        fclose(file);
    }
}

// A program that ends at once runs no destructor.
void _exit(int status) {
    end();
    for (;;) syscall(SYS_exit_group, status);
}

static int is_refused(void) {
    if (inside) return 0;
    unsigned long number = atomic_fetch_add(count, 1) + 1;
    return at && (number == at || (on && number > at));
}

void *malloc(size_t size) { return is_refused() ? (errno = ENOMEM, NULL) : __libc_malloc(size); }

void *calloc(size_t many, size_t size) { return is_refused() ? (errno = ENOMEM, NULL) : __libc_calloc(many, size); }

void *realloc(void *old, size_t size) { return is_refused() ? (errno = ENOMEM, NULL) : __libc_realloc(old, size); }

void *memalign(size_t align, size_t size) { return is_refused() ? (errno = ENOMEM, NULL) : __libc_memalign(align, size); }

void *aligned_alloc(size_t align, size_t size) { return memalign(align, size); }

int posix_memalign(void **to, size_t align, size_t size) {
    void *made = memalign(align, size);
    if (!made) return ENOMEM;
    *to = made;
    return 0;
}

int pthread_create(pthread_t *to, const pthread_attr_t *attributes, void *(*run)(void *), void *given) {
    static int (*real)(pthread_t *, const pthread_attr_t *, void *(*)(void *), void *);
    unsigned long number = atomic_fetch_add(&starts, 1) + 1;
    if (start && (number == start || (on && number > start))) return EAGAIN;
    inside++;
    if (!real) real = (int (*)(pthread_t *, const pthread_attr_t *, void *(*)(void *), void *))dlsym(RTLD_NEXT, "pthread_create");
    int answer = real(to, attributes, run, given);
    inside--;
    return answer;
}

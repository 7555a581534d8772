// Refuses one piece of memory: preloaded before a program, it lets the call of malloc, calloc or realloc fail
// whose number, from 1, REFUSE names. At the end it writes on standard error how many calls there were.
#define _GNU_SOURCE
#include <dlfcn.h>
#include <errno.h>
#include <stdio.h>
#include <stdlib.h>
#include <unistd.h>

static long calls, refused = -1;

static int refuses(void) {
    if (refused < 0) {
        const char *word = getenv("REFUSE");
        refused = word ? atol(word) : 0;
    }
    if (__atomic_add_fetch(&calls, 1, __ATOMIC_RELAXED) != refused) return 0;
    errno = ENOMEM;
    return 1;
}

extern void *__libc_malloc(size_t);
extern void *__libc_calloc(size_t, size_t);
extern void *__libc_realloc(void *, size_t);

void *malloc(size_t size) { return refuses() ? NULL : __libc_malloc(size); }
void *calloc(size_t count, size_t size) { return refuses() ? NULL : __libc_calloc(count, size); }
void *realloc(void *old, size_t size) { return refuses() ? NULL : __libc_realloc(old, size); }

__attribute__((destructor)) static void tell(void) {
    char line[32];
    int length = snprintf(line, sizeof line, "%ld\n", calls);
    if (getenv("REFUSE")) (void)!write(2, line, length);
}

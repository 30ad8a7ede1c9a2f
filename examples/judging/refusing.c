/* Counts the requests for memory of a program that it is loaded into, and refuses one: that of the number which
 * REFUSED_REQUEST says, where it says one. How many there were is told on standard error at the end. */
#define _GNU_SOURCE
#include <errno.h>
#include <stdatomic.h>
#include <stdio.h>
#include <stdlib.h>
#include <sys/syscall.h>
#include <unistd.h>

extern void *__libc_malloc(size_t), *__libc_calloc(size_t, size_t), *__libc_realloc(void *, size_t);

static atomic_long requests;
static long refused;

__attribute__((constructor)) static void begin(void) {
    const char *number = getenv("REFUSED_REQUEST");
    refused = number ? atol(number) : 0;
    requests = 0;
}

static int is_refused(void) {
    if (atomic_fetch_add(&requests, 1) + 1 != refused) return 0;
    errno = ENOMEM;
    return 1;
}

void *malloc(size_t size) { return is_refused() ? NULL : __libc_malloc(size); }

void *calloc(size_t count, size_t size) { return is_refused() ? NULL : __libc_calloc(count, size); }

void *realloc(void *old, size_t size) { return is_refused() ? NULL : __libc_realloc(old, size); }

__attribute__((destructor)) static void end(void) {
    char line[64];
    int length = snprintf(line, sizeof line, "requests %ld\n", atomic_load(&requests));
    syscall(SYS_write, 2, line, length);
}

void _exit(int status) {
    end();
    syscall(SYS_exit_group, status);
    __builtin_unreachable();
}

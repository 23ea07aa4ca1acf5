/* Stands before malloc, calloc and realloc, and refuses some requests: bench/memory preloads it.

   REFUSE is the number of the first request that is refused, counted from 1 (0: none); with REFUSE_ALL each later one is
   refused too. At the end, which is a call of _exit, the number of requests is written into the file that REFUSE_COUNT
   names. */
#define _GNU_SOURCE
#include <errno.h>
#include <fcntl.h>
#include <stdatomic.h>
#include <stddef.h>
#include <stdlib.h>
#include <sys/syscall.h>
#include <unistd.h>

extern void *__libc_malloc(size_t);
extern void *__libc_calloc(size_t, size_t);
extern void *__libc_realloc(void *, size_t);

static atomic_ulong requests;
static unsigned long refused;
static int all;

__attribute__((constructor)) static void begin(void) {
    const char *first = getenv("REFUSE");
    refused = first ? strtoul(first, NULL, 10) : 0;
    all = getenv("REFUSE_ALL") != NULL;
    atomic_store(&requests, 0);
}

static void tell(const char *path, unsigned long count) {
    char digits[24];
    size_t at = sizeof digits;
    int file = open(path, O_WRONLY | O_CREAT | O_TRUNC, 0600);
    do digits[--at] = '0' + count % 10; while (count /= 10);
    if (file >= 0 && write(file, digits + at, sizeof digits - at) > 0) close(file);
}

void _exit(int status) {
    const char *path = getenv("REFUSE_COUNT");
    if (path) tell(path, atomic_load(&requests));
    for (;;) syscall(SYS_exit_group, status);
}

static int is_refused(void) {
    unsigned long number = atomic_fetch_add(&requests, 1) + 1;
    if (refused == 0 || (all ? number < refused : number != refused)) return 0;
    errno = ENOMEM;
    return 1;
}

void *malloc(size_t size) { return is_refused() ? NULL : __libc_malloc(size); }
void *calloc(size_t count, size_t size) { return is_refused() ? NULL : __libc_calloc(count, size); }
void *realloc(void *from, size_t size) { return is_refused() ? NULL : __libc_realloc(from, size); }

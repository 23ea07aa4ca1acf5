/* Stands before read of standard input and write of standard output: bench/streams preloads it.

   PIECE is the most bytes that a call moves. READ and WRITE are the numbers, counted from 1, of the read and of the write
   that fail with the error ERROR, once (0: none). */
#define _GNU_SOURCE
#include <errno.h>
#include <stdlib.h>
#include <sys/syscall.h>
#include <unistd.h>

static unsigned long numbers[2], failing[2], piece;
static int error;

static unsigned long number_of(const char *name) {
    const char *text = getenv(name);
    return text ? strtoul(text, NULL, 10) : 0;
}

__attribute__((constructor)) static void begin(void) {
    piece = number_of("PIECE");
    failing[0] = number_of("READ");
    failing[1] = number_of("WRITE");
    error = (int)number_of("ERROR");
}

static long moved(long call, int file, const void *bytes, size_t count) {
    if (file == 0 || file == 1) {
        if (++numbers[file] == failing[file]) {
            errno = error;
            return -1;
        }
        if (piece && count > piece) count = piece;
    }
    return syscall(call, file, bytes, count);
}

ssize_t read(int file, void *bytes, size_t count) { return moved(SYS_read, file, bytes, count); }
ssize_t write(int file, const void *bytes, size_t count) { return moved(SYS_write, file, bytes, count); }

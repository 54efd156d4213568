/* A library to be loaded before the C library, with which one call of a program fails.
 *
 * FAIL_CALL has a kind of call, `alloc`, `read` or `write`, and the number of the one that fails,
 * from 1 on: `alloc 7`. An allocation that fails gives no memory; a read or a write that fails moves
 * nothing and tells EIO. FAIL_PIECE, where it is set, is the most bytes that one read or one write
 * moves. FAIL_TELL is a file descriptor, to which `failed` is written when the call fails, and at the
 * program's end how many bytes it was given on standard input, behind a space.
 */
#include <errno.h>
#include <stdio.h>
#include <stdlib.h>
#include <string.h>
#include <sys/syscall.h>
#include <unistd.h>

extern void *__libc_malloc(size_t);
extern void *__libc_calloc(size_t, size_t);
extern void *__libc_realloc(void *, size_t);
extern void *__libc_memalign(size_t, size_t);

static char kind;            /* 'a', 'r' or 'w'; 0 where no call is to fail */
static long left;            /* how many calls of the kind are still made up to the one that fails */
static size_t piece = -1;    /* the most bytes of one read or write */
static int told;             /* the file descriptor that is told of the call that fails */
static long given;           /* how many bytes standard input gave */

__attribute__((constructor)) static void begin(void) {
    const char *call = getenv("FAIL_CALL");
    const char *most = getenv("FAIL_PIECE");
    const char *tell = getenv("FAIL_TELL");
    if (!call || !tell)
        return;
    told = atoi(tell);
    piece = most ? strtoul(most, NULL, 10) : piece;
    left = atol(call + strcspn(call, " "));
    kind = call[0];
}

__attribute__((destructor)) static void end(void) {
    char text[32];
    if (kind)
        syscall(SYS_write, told, text, snprintf(text, sizeof text, " %ld", given));
}

static int fails(char one) {
    if (kind != one || --left != 0)
        return 0;
    syscall(SYS_write, told, "failed", 6);
    return 1;
}

void *malloc(size_t size) {
    return fails('a') ? (errno = ENOMEM, NULL) : __libc_malloc(size);
}

void *calloc(size_t count, size_t size) {
    return fails('a') ? (errno = ENOMEM, NULL) : __libc_calloc(count, size);
}

void *realloc(void *old, size_t size) {
    return fails('a') ? (errno = ENOMEM, NULL) : __libc_realloc(old, size);
}

void *memalign(size_t align, size_t size) {
    return fails('a') ? (errno = ENOMEM, NULL) : __libc_memalign(align, size);
}

void *aligned_alloc(size_t align, size_t size) {
    return memalign(align, size);
}

int posix_memalign(void **place, size_t align, size_t size) {
    void *made = memalign(align, size);
    if (!made)
        return ENOMEM;
    *place = made;
    return 0;
}

ssize_t read(int file, void *bytes, size_t size) {
    if (file == 0 && fails('r'))
        return errno = EIO, -1;
    ssize_t count = syscall(SYS_read, file, bytes, size < piece ? size : piece);
    given += file == 0 && count > 0 ? count : 0;
    return count;
}

ssize_t write(int file, const void *bytes, size_t size) {
    if (file == 1 && fails('w'))
        return errno = EIO, -1;
    return syscall(SYS_write, file, bytes, size < piece ? size : piece);
}

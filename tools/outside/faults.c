/* Stands between a program and the C library, and refuses some of what the program asks for. It is preloaded:
 *
 *     LD_PRELOAD=faults.so FAULT=KIND FIRST=n LAST=m COUNTS=FILE PROGRAM ..
 *
 * KIND is memory, open, read, write, short-read or short-write. Of the calls of that kind, which are numbered from 1, those
 * from n to m fail (ENOMEM, EACCES, EIO, ENOSPC), or take one byte where they are short. At its end FILE gets the number of calls.
 */
#define _GNU_SOURCE
#include <errno.h>
#include <fcntl.h>
#include <stdarg.h>
#include <stdio.h>
#include <stdlib.h>
#include <string.h>
#include <sys/syscall.h>
#include <unistd.h>

extern void *__libc_malloc(size_t);
extern void *__libc_realloc(void *, size_t);

static unsigned long calls;

/* Counts a call of this kind, and tells whether it is one of those that are refused. */
static int refused(const char *kind) {
    const char *wanted = getenv("FAULT"), *first = getenv("FIRST"), *last = getenv("LAST");
    if (!wanted || strcmp(wanted, kind) != 0)
        return 0;
    calls++;
    return first && last && strtoul(first, 0, 10) <= calls && calls <= strtoul(last, 0, 10);
}

static long failed(int error) {
    errno = error;
    return -1;
}

void *malloc(size_t size) {
    if (!refused("memory"))
        return __libc_malloc(size);
    failed(ENOMEM);
    return 0;
}

void *realloc(void *old, size_t size) {
    if (!refused("memory"))
        return __libc_realloc(old, size);
    failed(ENOMEM);
    return 0;
}

int open(const char *path, int flags, ...) {
    va_list more;
    va_start(more, flags);
    int mode = flags & O_CREAT ? va_arg(more, int) : 0;
    va_end(more);
    return refused("open") ? failed(EACCES) : syscall(SYS_openat, AT_FDCWD, path, flags, mode);
}

ssize_t read(int file, void *into, size_t size) {
    if (refused("read"))
        return failed(EIO);
    return syscall(SYS_read, file, into, refused("short-read") && size > 1 ? 1 : size);
}

ssize_t write(int file, const void *from, size_t size) {
    if (refused("write"))
        return failed(ENOSPC);
    return syscall(SYS_write, file, from, refused("short-write") && size > 1 ? 1 : size);
}

/* The name by which the program calls it. */
ssize_t __write(int file, const void *from, size_t size) {
    return write(file, from, size);
}

__attribute__((destructor)) static void note(void) {
    const char *path = getenv("COUNTS");
    int file = path ? syscall(SYS_openat, AT_FDCWD, path, O_WRONLY | O_CREAT | O_TRUNC, 0600) : -1;
    char text[24];
    if (file >= 0)
        syscall(SYS_write, file, text, snprintf(text, sizeof text, "%lu", calls));
}

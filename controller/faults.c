/* A library to be loaded before the bus program (LD_PRELOAD): lets one kind of system call on its files fail, as a disk without room
 * or a folder without rights would. FAULT is FUNCTION:CALL:ERROR: the CALL-th call of the function, or each with 0, fails with
 * the number ERROR. With error 0 a read or a write takes 100 bytes at most, and a lock is on a file that has just lost its name. */
#define _GNU_SOURCE
#include <errno.h>
#include <fcntl.h>
#include <stdarg.h>
#include <stdio.h>
#include <stdlib.h>
#include <string.h>
#include <sys/syscall.h>
#include <unistd.h>

#define PIECE 100

/* -1 where this call goes on as ever, else the error with which it fails. */
static int fault(const char *function) {
    static int calls;
    const char *wanted = getenv("FAULT"), *end = wanted ? strchr(wanted, ':') : NULL;
    int call, error;

    if (!end || strlen(function) != (size_t)(end - wanted) || memcmp(function, wanted, strlen(function)) != 0) return -1;
    if (sscanf(end, ":%d:%d", &call, &error) != 2) abort();
    calls++;
    if (call != 0 && call != calls) return -1;
    errno = error;
    return error;
}

int open(const char *path, int flags, ...) {
    va_list more;
    int mode;

    va_start(more, flags);
    mode = flags & O_CREAT ? va_arg(more, int) : 0;
    va_end(more);
    return fault("open") > 0 ? -1 : (int)syscall(SYS_openat, AT_FDCWD, path, flags, mode);
}

ssize_t read(int file, void *bytes, size_t length) {
    int error = fault("read");

    if (error > 0) return -1;
    return syscall(SYS_read, file, bytes, error == 0 && length > PIECE ? PIECE : length);
}

ssize_t write(int file, const void *bytes, size_t length) {
    int error = fault("write");

    if (error > 0) return -1;
    return syscall(SYS_write, file, bytes, error == 0 && length > PIECE ? PIECE : length);
}

int close(int file) {
    int error = fault("close"), closed = (int)syscall(SYS_close, file);

    if (error <= 0) return closed;
    errno = error;
    return -1;
}

int fsync(int file) { return fault("fsync") > 0 ? -1 : (int)syscall(SYS_fsync, file); }

int rename(const char *from, const char *to) {
    return fault("rename") > 0 ? -1 : (int)syscall(SYS_renameat, AT_FDCWD, from, AT_FDCWD, to);
}

int flock(int file, int operation) {
    int error = fault("flock");

    if (error > 0) return -1;
    if (error == 0) unlink("kept.lock");
    return (int)syscall(SYS_flock, file, operation);
}

/* A library to be loaded before the bus program (LD_PRELOAD): writes to the file that WITNESS names what the program does with its
 * files, and when it prints an answer, in their order. Each function then makes the system call itself. */
#define _GNU_SOURCE
#include <fcntl.h>
#include <stdarg.h>
#include <stdio.h>
#include <stdlib.h>
#include <sys/syscall.h>
#include <unistd.h>

#define FILES 64
#define NAME 256

static char names[FILES][NAME]; /* of the files that are open, by their descriptors */

static void note(const char *what, const char *first, const char *second) {
    static int file = -1;
    char line[3 * NAME];
    int length = snprintf(line, sizeof line, "%s%s%s%s%s\n", what, *first ? " " : "", first, *second ? " " : "", second);

    if (file < 0) file = (int)syscall(SYS_openat, AT_FDCWD, getenv("WITNESS"), O_WRONLY | O_CREAT | O_APPEND, 0666);
    if (length < 0 || length >= (int)sizeof line || syscall(SYS_write, file, line, (size_t)length) != length) abort();
}

static const char *name_of(int file) { return file >= 0 && file < FILES ? names[file] : ""; }

int open(const char *path, int flags, ...) {
    va_list more;
    int mode, file;

    va_start(more, flags);
    mode = flags & O_CREAT ? va_arg(more, int) : 0;
    va_end(more);
    file = (int)syscall(SYS_openat, AT_FDCWD, path, flags, mode);
    if (file >= 0 && file < FILES) snprintf(names[file], NAME, "%s", path);
    return file;
}

ssize_t write(int file, const void *bytes, size_t length) {
    note("write", name_of(file), "");
    return syscall(SYS_write, file, bytes, length);
}

int fsync(int file) {
    note("fsync", name_of(file), "");
    return (int)syscall(SYS_fsync, file);
}

int rename(const char *from, const char *to) {
    note("rename", from, to);
    return (int)syscall(SYS_renameat, AT_FDCWD, from, AT_FDCWD, to);
}

/* The program prints an answer whole and flushes it. */
int fflush(FILE *stream) {
    if (stream == stdout) note("answer", "", "");
    return fflush_unlocked(stream);
}

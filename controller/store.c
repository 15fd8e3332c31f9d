#define _XOPEN_SOURCE 700
#include "store.h"

#include <errno.h>
#include <fcntl.h>
#include <stdio.h>
#include <stdlib.h>
#include <string.h>
#include <sys/stat.h>
#include <unistd.h>

/* Reads up to `most` bytes, fewer only at the end of the file; -1 where reading fails. */
static ssize_t read_up_to(int file, uint8_t *bytes, size_t most) {
    size_t length = 0;

    while (length < most) {
        ssize_t got = read(file, bytes + length, most - length);

        if (got == 0) break;
        if (got < 0 && errno == EINTR) continue;
        if (got < 0) return -1;
        length += (size_t)got;
    }
    return (ssize_t)length;
}

const char *store_read(struct buffer *buffer, const char *path) {
    uint8_t bytes[BUFFER_MOST + 1];
    ssize_t length;
    int file = open(path, O_RDONLY);

    if (file < 0) return "cannot read";
    length = read_up_to(file, bytes, sizeof bytes);
    close(file);
    if (length < 0) return "cannot read";
    if (length > BUFFER_MOST) return "file too long";
    memcpy(buffer->bytes, bytes, (size_t)length);
    buffer->length = (size_t)length;
    return NULL;
}

/* Writes the buffer to a file that is made anew, down to the disk; 0, or -1 where that fails. */
static int write_down(const struct buffer *buffer, const char *path) {
    int file = open(path, O_WRONLY | O_CREAT | O_TRUNC, 0666);
    size_t written = 0;

    if (file < 0) return -1;
    while (written < buffer->length) {
        ssize_t put = write(file, buffer->bytes + written, buffer->length - written);

        if (put < 0 && errno == EINTR) continue;
        if (put <= 0) break;
        written += (size_t)put;
    }
    if (written < buffer->length || (fsync(file) != 0 && errno != EINVAL)) {
        close(file);
        return -1;
    }
    return close(file);
}

/* Makes the new name last. Where this fails nobody can say which of two images a loss of power would leave: the program stops
 * before it answers. A file system that cannot do this for a folder says EINVAL. */
static void sync_folder(const char *path) {
    char folder[PATH_ROOM];
    const char *slash = strrchr(path, '/');
    int file;

    if (!slash)
        strcpy(folder, ".");
    else
        snprintf(folder, sizeof folder, "%.*s", (int)(slash - path + 1), path);
    file = open(folder, O_RDONLY);
    if (file < 0 || (fsync(file) != 0 && errno != EINVAL)) {
        fprintf(stderr, "bus: %s cannot be synced: %s\n", folder, strerror(errno));
        exit(1);
    }
    close(file);
}

static int ends_with(const char *path, const char *end) {
    return strlen(path) >= strlen(end) && strcmp(path + strlen(path) - strlen(end), end) == 0;
}

const char *store_place(char place[PATH_ROOM], const char *path) {
    struct stat about;

    if (!*path || strlen(path) >= PATH_ROOM) return "no file name";
    strcpy(place, path);
    if (lstat(path, &about) == 0 && S_ISLNK(about.st_mode) && !realpath(path, place)) return "a link that leads nowhere";
    if (stat(place, &about) == 0 && !S_ISREG(about.st_mode)) return "not a plain file";
    return ends_with(place, END_NEW) || ends_with(place, END_LOCK) ? "a name that ends with " END_NEW " or " END_LOCK : NULL;
}

const char *store_write(const struct buffer *buffer, const char *path) {
    char temporary[PATH_ROOM];

    if (snprintf(temporary, sizeof temporary, "%s" END_NEW, path) >= (int)sizeof temporary) return "cannot write";
    if (write_down(buffer, temporary) != 0 || rename(temporary, path) != 0) {
        unlink(temporary);
        return "cannot write";
    }
    sync_folder(path);
    return NULL;
}

const char *store_copy(const struct buffer *buffer, const char *path, const struct lock *own) {
    char place[PATH_ROOM];
    struct stat about;
    struct lock lock;
    const char *wrong;

    /* A device or a pipe has no place to be put in. */
    if (stat(path, &about) == 0 && !S_ISREG(about.st_mode)) return write_down(buffer, path) == 0 ? NULL : "cannot write";
    if (store_place(place, path)) return "cannot write";
    if (own && lock_is_of(own, place)) return store_write(buffer, place);
    if (lock_take(&lock, place)) return "cannot write";
    wrong = store_write(buffer, place);
    lock_leave(&lock, place);
    return wrong;
}

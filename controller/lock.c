#define _POSIX_C_SOURCE 200809L
#include "lock.h"

#include <errno.h>
#include <fcntl.h>
#include <stdio.h>
#include <sys/file.h>
#include <sys/stat.h>
#include <unistd.h>

#include "store.h"

/* The name of the file that is locked; 0, or -1 where it is too long. */
static int name_beside(char name[PATH_ROOM], const char *path) {
    return snprintf(name, PATH_ROOM, "%s" END_LOCK, path) < PATH_ROOM ? 0 : -1;
}

/* One that another user left behind may only be readable, which is enough. */
static int open_beside(const char *name) {
    int file = open(name, O_RDWR | O_CREAT | O_CLOEXEC, 0666);

    return file < 0 && errno == EACCES ? open(name, O_RDONLY | O_CLOEXEC) : file;
}

/* Whether the name leads to the file that is open. */
static int leads_to(const char *name, int file) {
    struct stat named, opened;

    return stat(name, &named) == 0 && fstat(file, &opened) == 0 && named.st_dev == opened.st_dev && named.st_ino == opened.st_ino;
}

/* Locks the file that now has the name, without waiting. */
static const char *lock_name(struct lock *lock, const char *name) {
    const char *wrong = "cannot be locked";

    lock->file = open_beside(name);
    if (lock->file < 0) return wrong;
    if (flock(lock->file, LOCK_EX | LOCK_NB) == 0) return NULL;
    if (errno == EWOULDBLOCK) wrong = "another program keeps its image there";
    close(lock->file);
    return wrong;
}

const char *lock_take(struct lock *lock, const char *path) {
    char name[PATH_ROOM];
    const char *wrong;

    if (name_beside(name, path) != 0) return "file name too long";
    while (!(wrong = lock_name(lock, name)) && !leads_to(name, lock->file)) close(lock->file);
    return wrong;
}

int lock_is_of(const struct lock *lock, const char *path) {
    char name[PATH_ROOM];

    return name_beside(name, path) == 0 && leads_to(name, lock->file);
}

void lock_leave(const struct lock *lock, const char *path) {
    char name[PATH_ROOM];

    if (name_beside(name, path) == 0 && leads_to(name, lock->file)) unlink(name);
    close(lock->file);
}

/* One writer of a file: a lock that the bus program holds as long as it keeps its image there. */
#ifndef LOCK_H
#define LOCK_H

/* The lock of FILE is the system's (flock), on a second file beside it, FILE.lock, which is empty and is never read.
 *
 * It is not on FILE, which another file replaces with each call; and not on the folder, where two FILEs would block each other.
 * Whichever way a path leads to the folder, FILE.lock is one file there, and a FILE that is a symbolic link is followed first
 * (store_place). A copy of FILE is another file, and a second name of it (a hard link) is one from the first change on.
 *
 * The system lets go of the lock when the program ends, however it ends, and when the machine stops. So a stop at any moment leaves
 * at most an empty FILE.lock that nobody has locked, which the next program locks; that the file is there says nothing.
 *
 * Only who holds the lock removes FILE.lock. Whoever had opened it before then locks a file without a name; so what was locked is
 * compared with what the name leads to, and where they differ it is tried again. Where somebody else removes it all the same, the
 * program that held it writes FILE no more (keep in bus.c). */
struct lock {
    int file;
};

/* Takes the lock of a file. The answer is NULL, or why it cannot be taken, at once and with nothing changed. */
const char *lock_take(struct lock *lock, const char *path);

/* Whether this is the lock of that file, and still is. */
int lock_is_of(const struct lock *lock, const char *path);

/* Removes the file that is locked and lets go of it: the last that is done with the file kept. */
void lock_leave(const struct lock *lock, const char *path);

#endif

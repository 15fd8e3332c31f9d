/* The buffer that holds an image, and files of it. */
#ifndef STORE_H
#define STORE_H

#include <stddef.h>
#include <stdint.h>

#include "lock.h"

#define BUFFER_MOST 8192 /* the bytes that a buffer has room for */
#define PATH_ROOM 4352   /* the bytes of a path with its end, and of what the files beside it add to it */
#define END_NEW ".new"   /* what the temporary file beside a file adds to its name */
#define END_LOCK ".lock" /* and the file that is locked as long as a program writes it, so that there is one writer: lock.h */

struct buffer {
    size_t length;
    uint8_t bytes[BUFFER_MOST];
};

/* Reads a whole file into the buffer. The answer is NULL, or why it cannot be done; the buffer then stays. */
const char *store_read(struct buffer *buffer, const char *path);

/* Where a file is kept: the path, or where it leads to if it is a symbolic link, so that neither a lock nor a file is made beside the
 * link. The answer is NULL, or why nothing can be kept there: a folder, a device or a pipe has no image before and after, a link may
 * lead nowhere, and the names of the files beside a file are not given to another. */
const char *store_place(char place[PATH_ROOM], const char *path);

/* Writes the buffer to a file whose lock is held: to a temporary one beside it, which is then put in its place in one step, so that a
 * stop at any moment leaves the file before or after. Once NULL is answered it stays so over a loss of power. Else the answer is why it
 * cannot be done, and the file is as it was. */
const char *store_write(const struct buffer *buffer, const char *path);

/* The same for a file whose lock is not held, or is held as `own`, which may be NULL: without it no file is written that another
 * program keeps. What is no plain file, as a device, is written to where it is. */
const char *store_copy(const struct buffer *buffer, const char *path, const struct lock *own);

#endif

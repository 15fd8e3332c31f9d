/* A line of text read as a request. */
#ifndef REQUEST_H
#define REQUEST_H

#include <stddef.h>
#include <stdint.h>

#define REQUEST_NUMBERS 2048 /* more numbers than a line can hold */

enum call { OPEN, PREVIEW, COMMIT, MOVE, OFFER, LATEST, LINES, ENQUIRE, BOARD, WITHDRAW, READ, WRITE, NOTHING };

struct request {
    enum call call;
    size_t count; /* of the numbers */
    uint32_t numbers[REQUEST_NUMBERS];
    const char *path; /* of `read` and `write`: the rest of the line */
    size_t path_length;
};

/* Reads a line; the answer is NULL, or why the line cannot be read. */
const char *request_read(struct request *request, const char *line, size_t length);

#endif

/* The calls of a station, each by one C function over the image. */
#ifndef CALLS_H
#define CALLS_H

#include "request.h"
#include "store.h"
#include "text.h"

/* Makes a call on the image in the buffer, and puts its answer into the text. The answer is 0, or the refusal. */
uint32_t calls_make(struct buffer *buffer, const struct request *request, struct text *text);

#endif

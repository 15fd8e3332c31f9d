/* An answer's text, put together before it is printed. */
#ifndef TEXT_H
#define TEXT_H

#include <stddef.h>

#define TEXT_MOST 8192 /* room for a clock move that reports 180 pairs */

struct text {
    size_t length;
    char bytes[TEXT_MOST];
};

/* Adds to the text as printf does. */
void text_add(struct text *text, const char *format, ...);

/* Prints the text as a line and flushes it; where it cannot be written the program says so and ends with status 1. */
void text_print(const struct text *text);

#endif

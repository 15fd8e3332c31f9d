#include "text.h"

#include <errno.h>
#include <stdarg.h>
#include <stdio.h>
#include <stdlib.h>
#include <string.h>

void text_add(struct text *text, const char *format, ...) {
    size_t room = sizeof text->bytes - text->length;
    va_list values;
    int added;

    va_start(values, format);
    added = vsnprintf(text->bytes + text->length, room, format, values);
    va_end(values);
    if (added < 0 || (size_t)added >= room) {
        fprintf(stderr, "bus: an answer is too long\n");
        exit(1);
    }
    text->length += (size_t)added;
}

void text_print(const struct text *text) {
    if (fwrite(text->bytes, 1, text->length, stdout) == text->length && putchar('\n') != EOF && fflush(stdout) == 0) return;
    fprintf(stderr, "bus: an answer cannot be written: %s\n", strerror(errno));
    exit(1);
}

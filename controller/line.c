#include "line.h"

#include <stdio.h>

int line_read(char line[LINE_MOST]) {
    size_t length = 0;
    int byte;

    while ((byte = getchar()) != EOF && byte != '\n') {
        if (length < LINE_MOST) line[length] = (char)byte;
        if (length <= LINE_MOST) length++;
    }
    if (byte == EOF && (length == 0 || ferror(stdin))) return LINE_END;
    return length > LINE_MOST ? LINE_LONG : (int)length;
}

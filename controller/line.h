/* Lines of text from standard input. */
#ifndef LINE_H
#define LINE_H

#include <stddef.h>

#define LINE_MOST 4096 /* the bytes of a line at most, its line feed left out */

enum { LINE_END = -1, LINE_LONG = -2 };

/* Reads a line, its line feed left out, and answers its length: LINE_LONG for one that is too long, of which nothing is kept,
 * LINE_END where none is left. What follows the last line feed is a line where it is not empty; but where reading fails it is not
 * known to be whole, and is no line. */
int line_read(char line[LINE_MOST]);

#endif

#include "request.h"

#include <string.h>

/* A call, its first word, and how many numbers it takes: the least, by how many there may be more, and the most. `open` takes the
 * number of feeders, the site limit, and three numbers for each of up to four feeders. `read` and `write` take a path. */
struct form {
    const char *word;
    enum call call;
    size_t least, more, most;
};

static const struct form forms[] = {
    {"open", OPEN, 5, 3, 14},        {"preview", PREVIEW, 5, 1, 5}, {"commit", COMMIT, 6, 1, 6},
    {"move", MOVE, 2, 1, 2},         {"offer", OFFER, 1, 1, 2048},  {"latest", LATEST, 1, 1, 1},
    {"lines", LINES, 2, 1, 2},       {"enquire", ENQUIRE, 1, 1, 1}, {"board", BOARD, 1, 1, 2048},
    {"withdraw", WITHDRAW, 1, 1, 1}, {"read", READ, 0, 1, 0},       {"write", WRITE, 0, 1, 0},
};

/* Where the part of a text ends that begins at `from`: at a space or at the end. */
static size_t part_end(const char *text, size_t from, size_t length) {
    while (from < length && text[from] != ' ') from++;
    return from;
}

static const struct form *form_named(const char *word, size_t length) {
    size_t i;

    for (i = 0; i < sizeof forms / sizeof forms[0]; i++)
        if (strlen(forms[i].word) == length && memcmp(forms[i].word, word, length) == 0) return &forms[i];
    return NULL;
}

/* A decimal number of 32 bits, however many zeros it begins with. */
static const char *number_read(uint32_t *number, const char *digits, size_t length) {
    uint64_t value = 0;
    size_t i;

    if (length == 0) return "not a number";
    for (i = 0; i < length; i++) {
        if (digits[i] < '0' || digits[i] > '9') return "not a number";
        if (value <= UINT32_MAX) value = 10 * value + (uint64_t)(digits[i] - '0');
    }
    if (value > UINT32_MAX) return "number too large";
    *number = (uint32_t)value;
    return NULL;
}

/* The numbers after the first word, which ends at `at`; each stands after one space. */
static const char *numbers_read(struct request *request, const struct form *form, const char *line, size_t at,
                                size_t length) {
    while (at < length) {
        size_t from = at + 1, end = part_end(line, from, length);
        const char *wrong;

        if (request->count == form->most) return "extra number";
        wrong = number_read(&request->numbers[request->count], line + from, end - from);
        if (wrong) return wrong;
        request->count++;
        at = end;
    }
    if (request->count < form->least || (request->count - form->least) % form->more != 0) return "missing number";
    return NULL;
}

/* The path after the first word, which ends at `at`: one word, not empty. */
static const char *path_read(struct request *request, const char *line, size_t at, size_t length) {
    if (at + 1 >= length || line[at + 1] == ' ') return "missing file";
    if (part_end(line, at + 1, length) != length) return "extra word";
    request->path = line + at + 1;
    request->path_length = length - at - 1;
    return NULL;
}

const char *request_read(struct request *request, const char *line, size_t length) {
    size_t end = part_end(line, 0, length);
    const struct form *form;

    request->call = NOTHING;
    request->count = 0;
    if (length == 0 || line[0] == '#') return NULL;
    form = form_named(line, end);
    if (!form) return "unknown call";
    request->call = form->call;
    if (form->call == READ || form->call == WRITE) return path_read(request, line, end, length);
    return numbers_read(request, form, line, end, length);
}

/* The bus program: lines of text on standard input, an answer to each on standard output, over one image.
 *
 *   bus          the image is in memory, at first 4,608 zero bytes
 *   bus FILE     the image is kept in the file, if there is one, and each call's is there before its answer is printed
 *
 * The lines are in docs/INTERFACE.md.
 */
#define _XOPEN_SOURCE 700
#include <errno.h>
#include <fcntl.h>
#include <signal.h>
#include <stdio.h>
#include <stdlib.h>
#include <string.h>

#include "calls.h"
#include "line.h"
#include "request.h"
#include "store.h"
#include "text.h"
#include "togbeyis.h"

struct bus {
    const char *kept; /* the file in which the image is kept, or NULL */
    struct lock lock; /* of that file, held as long as it is kept */
    struct buffer image;
};

/* The file is written only under its lock: somebody may have removed what is locked, or put another folder in the place of its own,
 * and another program may then keep its image there. */
static const char *keep(const struct bus *bus, const struct buffer *next) {
    return lock_is_of(&bus->lock, bus->kept) ? store_write(next, bus->kept) : "cannot write";
}

/* Makes `next` the image, in its file first; the answer is NULL, or why that cannot be done. */
static const char *hold(struct bus *bus, const struct buffer *next) {
    const char *wrong = NULL;
    int same = next->length == bus->image.length && memcmp(next->bytes, bus->image.bytes, next->length) == 0;

    if (bus->kept && !same) wrong = keep(bus, next);
    if (!wrong) bus->image = *next;
    return wrong;
}

static const char *answer_read(struct bus *bus, const char *path, struct text *text) {
    struct buffer next;
    const char *wrong = store_read(&next, path);

    if (!wrong) wrong = hold(bus, &next);
    if (!wrong) text_add(text, "read %zu", next.length);
    return wrong;
}

static const char *answer_write(const struct bus *bus, const char *path, struct text *text) {
    const char *wrong = store_copy(&bus->image, path, bus->kept ? &bus->lock : NULL);

    if (!wrong) text_add(text, "written %zu", bus->image.length);
    return wrong;
}

/* A path of a line has no end of its own; none holds a zero byte. */
static const char *answer_file(struct bus *bus, const struct request *request, struct text *text) {
    char path[LINE_MOST];

    if (memchr(request->path, 0, request->path_length)) return request->call == READ ? "cannot read" : "cannot write";
    memcpy(path, request->path, request->path_length);
    path[request->path_length] = 0;
    return request->call == READ ? answer_read(bus, path, text) : answer_write(bus, path, text);
}

static const char *answer_call(struct bus *bus, const struct request *request, struct text *text) {
    struct buffer next = bus->image;

    if (calls_make(&next, request, text) != 0) return NULL;
    return hold(bus, &next);
}

/* What a line is answered; the text stays empty where there is no answer. */
static void answer(struct bus *bus, const char *line, int length, struct text *text) {
    static struct request request;
    const char *wrong = length == LINE_LONG ? "line too long" : request_read(&request, line, (size_t)length);

    if (!wrong && request.call == NOTHING) return;
    if (!wrong && (request.call == READ || request.call == WRITE))
        wrong = answer_file(bus, &request, text);
    else if (!wrong)
        wrong = answer_call(bus, &request, text);
    if (!wrong) return;
    text->length = 0;
    text_add(text, "error %s", wrong);
}

/* The image that the file keeps; where there is no such file yet, the zero bytes. It is locked before it is read, and from then on. */
static const char *begin_kept(struct bus *bus, const char *path) {
    static char place[PATH_ROOM];
    const char *wrong = strlen(path) >= LINE_MOST ? "file name too long" : store_place(place, path);

    if (!wrong) wrong = lock_take(&bus->lock, place);
    if (wrong) return wrong;
    bus->kept = place;
    errno = 0;
    wrong = store_read(&bus->image, place);
    if (!wrong || errno == ENOENT) return NULL;
    lock_leave(&bus->lock, place);
    return wrong;
}

static void begin(struct bus *bus, const char *path) {
    const char *wrong = NULL;

    bus->image.length = TOGBEYIS_IMAGE;
    if (path) wrong = begin_kept(bus, path);
    if (!wrong) return;
    fprintf(stderr, "bus: %s: %s\n", path, wrong);
    exit(1);
}

/* A write that fails is to be answered or told, and not to end the program without a word: one beyond a limit on the size of files,
 * or to a pipe that nobody reads. Where one of the three is closed, a file would be opened in its place. */
static void begin_process(void) {
    int file;

    signal(SIGXFSZ, SIG_IGN);
    signal(SIGPIPE, SIG_IGN);
    for (file = 0; file < 3; file++) {
        if (fcntl(file, F_GETFD) != -1) continue;
        fprintf(stderr, "bus: standard input, output and error are to be open\n");
        exit(1);
    }
}

int main(int count, char **words) {
    static struct bus bus;
    static struct text text;
    char line[LINE_MOST];
    int length;

    if (count > 2) {
        fprintf(stderr, "usage: bus [FILE]\n");
        return 2;
    }
    begin_process();
    begin(&bus, count == 2 ? words[1] : NULL);
    while ((length = line_read(line)) != LINE_END) {
        text.length = 0;
        answer(&bus, line, length, &text);
        if (text.length) text_print(&text);
    }
    if (bus.kept) lock_leave(&bus.lock, bus.kept);
    if (!ferror(stdin)) return 0;
    fprintf(stderr, "bus: standard input cannot be read\n");
    return 1;
}

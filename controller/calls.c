#include "calls.h"

#include <inttypes.h>

#include "togbeyis.h"

#define PLACES_MOST 4096 /* the places of a lent list at most */

/* So many places of a list as are asked for, each 4,294,967,295. */
static size_t lend(uint32_t list[PLACES_MOST], uint32_t asked) {
    size_t places = asked < PLACES_MOST ? asked : PLACES_MOST, i;

    for (i = 0; i < places; i++) list[i] = UINT32_MAX;
    return places;
}

/* An image is of one feeder, so that there is one bound. */
static uint32_t make_open(struct buffer *b, const uint32_t *n, size_t count, struct text *text, uint32_t *blocks) {
    uint32_t bound = 0;
    uint32_t refusal = togbeyis_open(b->bytes, b->length, n[0], n[1], n + 2, count - 2, &bound, blocks);

    if (!refusal) text_add(text, "open 0 %" PRIu32, bound);
    return refusal;
}

static uint32_t make_preview(struct buffer *b, const uint32_t *n, struct text *text, uint32_t *blocks) {
    uint32_t start = 0;
    uint32_t refusal = togbeyis_preview(b->bytes, b->length, n[0], n[1], n[2], n[3], n[4], &start, blocks);

    if (!refusal) text_add(text, "start %" PRIu32, start);
    return refusal;
}

static uint32_t make_commit(struct buffer *b, const uint32_t *n, struct text *text, uint32_t *blocks) {
    uint32_t ticket = 0, start = 0, refusal;

    refusal = togbeyis_commit(b->bytes, b->length, n[0], n[1], n[2], n[3], n[4], n[5], &ticket, &start, blocks);
    if (!refusal) text_add(text, "ticket %" PRIu32 " start %" PRIu32, ticket, start);
    return refusal;
}

static uint32_t make_move(struct buffer *b, const uint32_t *n, struct text *text, uint32_t *blocks) {
    uint32_t report[PLACES_MOST], refusal;
    size_t places = lend(report, n[1]), reported = 0, dropped = 0, i;

    refusal = togbeyis_move(b->bytes, b->length, n[0], report, places, &reported, &dropped, blocks);
    if (refusal) return refusal;
    text_add(text, "moved %zu dropped %zu", reported, dropped);
    for (i = 0; i < 2 * reported; i++) text_add(text, " %" PRIu32, report[i]);
    return 0;
}

/* What an offer and both replans answer. */
struct plan {
    uint32_t cause, rounds;
    uint64_t before, after;
};

static uint32_t tell_plan(uint32_t refusal, const struct plan *p, struct text *text) {
    if (!refusal)
        text_add(text, "plan %" PRIu32 " %" PRIu64 " %" PRIu64 " %" PRIu32, p->cause, p->before, p->after, p->rounds);
    return refusal;
}

static uint32_t make_offer(struct buffer *b, const uint32_t *n, size_t count, struct text *text, uint32_t *blocks) {
    struct plan p = {0, 0, 0, 0};
    size_t starts = count - 1;
    uint32_t refusal;

    refusal = togbeyis_offer(b->bytes, b->length, n[0], n + 1, starts, &p.cause, &p.before, &p.after, &p.rounds, blocks);
    return tell_plan(refusal, &p, text);
}

static uint32_t make_latest(struct buffer *b, const uint32_t *n, struct text *text, uint32_t *blocks) {
    struct plan p = {0, 0, 0, 0};
    uint32_t refusal = togbeyis_latest(b->bytes, b->length, n[0], &p.cause, &p.before, &p.after, &p.rounds, blocks);

    return tell_plan(refusal, &p, text);
}

static uint32_t make_lines(struct buffer *b, const uint32_t *n, struct text *text, uint32_t *blocks) {
    struct plan p = {0, 0, 0, 0};
    uint32_t refusal = togbeyis_lines(b->bytes, b->length, n[0], n[1], &p.cause, &p.before, &p.after, &p.rounds, blocks);

    return tell_plan(refusal, &p, text);
}

static uint32_t make_enquire(struct buffer *b, const uint32_t *n, struct text *text, uint32_t *blocks) {
    uint32_t charging = 0, start = 0, rate = 0, end = 0;
    uint32_t refusal = togbeyis_enquire(b->bytes, b->length, n[0], &charging, &start, &rate, &end, blocks);

    if (refusal) return refusal;
    if (charging)
        text_add(text, "charging %" PRIu32 " %" PRIu32 " %" PRIu32, start, end, rate);
    else
        text_add(text, "waiting %" PRIu32 " %" PRIu32, start, rate);
    return 0;
}

static uint32_t make_board(struct buffer *b, const uint32_t *n, size_t count, struct text *text, uint32_t *blocks) {
    uint32_t answers[PLACES_MOST], refusal;
    size_t places = lend(answers, n[0]), asked = count - 1, looked = 0, i;

    refusal = togbeyis_board(b->bytes, b->length, n + 1, asked, answers, places, &looked, blocks);
    if (refusal) return refusal;
    text_add(text, "board %zu", looked);
    for (i = 0; i < asked; i++) text_add(text, " %" PRIu32, answers[i]);
    return 0;
}

static uint32_t make_withdraw(struct buffer *b, const uint32_t *n, struct text *text, uint32_t *blocks) {
    uint32_t refusal = togbeyis_withdraw(b->bytes, b->length, n[0], blocks);

    if (!refusal) text_add(text, "withdrawn");
    return refusal;
}

static uint32_t make(struct buffer *b, const struct request *request, struct text *text, uint32_t *blocks) {
    const uint32_t *n = request->numbers;

    switch (request->call) {
    case OPEN: return make_open(b, n, request->count, text, blocks);
    case PREVIEW: return make_preview(b, n, text, blocks);
    case COMMIT: return make_commit(b, n, text, blocks);
    case MOVE: return make_move(b, n, text, blocks);
    case OFFER: return make_offer(b, n, request->count, text, blocks);
    case LATEST: return make_latest(b, n, text, blocks);
    case LINES: return make_lines(b, n, text, blocks);
    case ENQUIRE: return make_enquire(b, n, text, blocks);
    case BOARD: return make_board(b, n, request->count, text, blocks);
    case WITHDRAW: return make_withdraw(b, n, text, blocks);
    case READ:
    case WRITE:
    case NOTHING: break;
    }
    return 0;
}

uint32_t calls_make(struct buffer *buffer, const struct request *request, struct text *text) {
    uint32_t blocks = 0;
    uint32_t refusal = make(buffer, request, text, &blocks);

    if (refusal)
        text_add(text, "refused %" PRIu32, refusal);
    else
        text_add(text, " blocks %" PRIu32, blocks);
    return refusal;
}

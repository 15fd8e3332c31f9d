/* How much stack the calls need: each is made on a stack of its own that was painted before, and the paint that is left is counted.
 * Prints the most, and exits with 1 where that is above TOGBEYIS_STACK. */
#define _POSIX_C_SOURCE 200809L
#include <pthread.h>
#include <stdio.h>
#include <stdlib.h>
#include <string.h>

#include "togbeyis.h"

#define ROOM (1 << 22) /* the bytes of the painted stack */
#define PAINT 0xA5

static uint8_t image[TOGBEYIS_IMAGE];

/* Orders on the three lines until the yard is full, of both rates, as early as each fits. */
static void fill(void) {
    uint32_t ticket = 0, start = 0, blocks = 0, i;

    for (i = 0; i < TOGBEYIS_HELD; i++) {
        togbeyis_preview(image, sizeof image, 1, i % 3 + 1, 1 + 37 * i % 240, 7 * i, 1 + i % 2, &start, &blocks);
        togbeyis_commit(image, sizeof image, 1, i % 3 + 1, 1 + 37 * i % 240, 7 * i, 1 + i % 2, start, &ticket, &start, &blocks);
    }
}

/* Every call, refused and not, on an empty and on a full station. */
static void *calls(void *nothing) {
    const uint32_t settings[] = {60, 10, 5, 60, 10, 5, 60, 10, 5, 60, 10, 5};
    uint32_t report[TOGBEYIS_REPORT], starts[TOGBEYIS_HELD], a = 0, b = 0, c = 0, d = 0, blocks = 0;
    uint8_t copy[TOGBEYIS_IMAGE];
    uint64_t before = 0, after = 0;
    size_t reported = 0, dropped = 0, i;

    togbeyis_open(image, sizeof image, 4, 720, settings, 12, &a, &blocks);
    togbeyis_open(image, sizeof image, 1, 720, settings, 3, &a, &blocks);
    fill();
    for (i = 0; i < TOGBEYIS_HELD; i++) starts[i] = (uint32_t)(400 * i);
    togbeyis_restore(image, sizeof image);
    togbeyis_save(image, sizeof image, copy, sizeof copy, &blocks);
    togbeyis_offer(image, sizeof image, 1, starts, TOGBEYIS_HELD, &a, &before, &after, &b, &blocks);
    togbeyis_latest(image, sizeof image, 1, &a, &before, &after, &b, &blocks);
    togbeyis_lines(image, sizeof image, 1, 1000, &a, &before, &after, &b, &blocks);
    togbeyis_enquire(image, sizeof image, TOGBEYIS_HELD, &a, &b, &c, &d, &blocks);
    for (i = 0; i < TOGBEYIS_HELD; i++) starts[i] = (uint32_t)(i + 1);
    togbeyis_board(image, sizeof image, starts, TOGBEYIS_HELD, report, TOGBEYIS_REPORT, &reported, &blocks);
    togbeyis_withdraw(image, sizeof image, TOGBEYIS_HELD, &blocks);
    togbeyis_move(image, sizeof image, 100, report, TOGBEYIS_REPORT, &reported, &dropped, &blocks);
    togbeyis_latest(image, sizeof image, 1, &a, &before, &after, &b, &blocks);
    togbeyis_lines(image, sizeof image, 1, 1000, &a, &before, &after, &b, &blocks);
    return nothing;
}

int main(void) {
    pthread_attr_t how;
    pthread_t thread;
    void *stack = NULL;
    size_t left = 0;

    if (posix_memalign(&stack, 4096, ROOM) != 0) return 2;
    memset(stack, PAINT, ROOM);
    if (pthread_attr_init(&how) != 0 || pthread_attr_setstack(&how, stack, ROOM) != 0) return 2;
    if (pthread_create(&thread, &how, calls, NULL) != 0 || pthread_join(thread, NULL) != 0) return 2;
    while (left < ROOM && ((uint8_t *)stack)[left] == PAINT) left++;
    printf("stack: %zu bytes of %d\n", ROOM - left, TOGBEYIS_STACK);
    free(stack);
    return ROOM - left > TOGBEYIS_STACK;
}

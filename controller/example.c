/* A station is opened, two orders are taken, the clock moves on, and the station survives a restart of the controller. */
#include <inttypes.h>
#include <stdio.h>
#include <string.h>

#include "togbeyis.h"

static uint8_t image[TOGBEYIS_IMAGE];
static uint32_t blocks;

/* Takes an order of feeder 1 with the earliest start that there is. */
static uint32_t order(uint32_t line, uint32_t time, uint32_t due) {
    uint32_t start = 0, ticket = 0, refusal;

    refusal = togbeyis_preview(image, sizeof image, 1, line, time, due, 1, &start, &blocks);
    if (!refusal)
        refusal = togbeyis_commit(image, sizeof image, 1, line, time, due, 1, start, &ticket, &start, &blocks);
    if (!refusal) printf("ticket %" PRIu32 " starts at %" PRIu32 ": %" PRIu32 " blocks\n", ticket, start, blocks);
    return refusal;
}

int main(void) {
    static uint8_t card[TOGBEYIS_IMAGE];
    const uint32_t settings[] = {1, 100, 0}; /* N, c and r of the one feeder, under a site limit of 720 */
    uint32_t report[TOGBEYIS_REPORT], bound = 0, charging = 0, start = 0, rate = 0, end = 0;
    size_t reported = 0, dropped = 0;

    printf("opened: %" PRIu32 ", ", togbeyis_open(image, sizeof image, 1, 720, settings, 3, &bound, &blocks));
    printf("the lines differ by %" PRIu32 " at most\n", bound);
    if (order(1, 10, 60) || order(1, 10, 60)) return 1;
    printf("an order for line 4: refused %" PRIu32 "\n", order(4, 10, 60));
    if (togbeyis_move(image, sizeof image, 1, report, TOGBEYIS_REPORT, &reported, &dropped, &blocks)) return 1;
    printf("%zu begun: ticket %" PRIu32 " at %" PRIu32 "\n", reported, report[0], report[1]);

    memcpy(card, image, sizeof card); /* what a controller does before it answers */
    memset(image, 0, sizeof image);   /* and what a restart does */
    if (togbeyis_save(card, sizeof card, image, sizeof image, &blocks)) return 1;
    if (togbeyis_enquire(image, sizeof image, 1, &charging, &start, &rate, &end, &blocks)) return 1;
    printf("ticket 1 %s until %" PRIu32 "\n", charging ? "charges" : "waits", end);
    return 0;
}

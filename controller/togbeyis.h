/* Togbeyis: a station of three-phase charging, as an image of 4,608 bytes that the controller holds. The image is of a station of one
 * feeder, and the functions serve no other; an order, an offer and a replan name it all the same, as feeder 1.
 *
 * Every function takes the image as bytes and their number. A call restores the station of the image, makes its call, and saves
 * the next station over the image. It returns 0, or the number of a refusal; a refusal leaves the image, every lent list and every
 * number behind a pointer as they are. The first that applies is given: of the image
 *
 *     20   it is not 4,608 bytes long
 *     21   the check of one of its nine blocks is wrong
 *     22   its contents are of no station of one feeder
 *
 * and then those of the call, in the order in which they stand below. A number may have any value of its type and a length may be
 * any: what is out of range is refused.
 *
 * *blocks, last, is in how many of its nine blocks of 512 bytes the image saved differs from the one that was lent: those are to be
 * written to the card. It is 0 where nothing changes.
 *
 * Nothing is allocated, no state is kept between calls and nothing is read or written but what the pointers name; so calls on
 * different images may run at the same time. A call needs up to TOGBEYIS_STACK bytes of stack, and always returns.
 *
 * What the caller owes: a pointer is not null, also where its length is 0; it is aligned for its type, and that many elements lie
 * there; what one call is lent does not overlap, but for two pointers that are only read. Nothing else writes it meanwhile.
 *
 * Link with libbus.a. C99, and C++.
 */
#ifndef TOGBEYIS_H
#define TOGBEYIS_H

#include <stddef.h>
#include <stdint.h>

#ifdef __cplusplus
extern "C" {
#endif

#define TOGBEYIS_IMAGE 4608  /* the bytes of an image */
#define TOGBEYIS_HELD 180    /* the charges that a station holds at most */
#define TOGBEYIS_REPORT 360  /* the places that a clock move wants of its report list, at least */
#define TOGBEYIS_STACK 204800 /* the bytes of stack that are enough for any call */

/* Tests an image: 0 where it is one, or 20, 21, 22. */
uint32_t togbeyis_restore(const uint8_t *image, size_t length);

/* Restores an image and saves its station to another. 20, 21, 22 of the image; then 20 where the copy is not 4,608 bytes long.
 * *blocks counts those of the copy. */
uint32_t togbeyis_save(const uint8_t *image, size_t length, uint8_t *copy, size_t copy_length,
                       uint32_t *blocks);

/* Opens a station. The count is of its feeders, and site is W, the limit on what all lines together draw in a minute. The settings are
 * three numbers for each feeder: limit N, percentage c and tail r, the minutes that a point draws after its end. A feeder whose numbers
 * are not given counts as 0, 0, 0, and what stands behind those of the count is not read. *bound is D. The image is compared but not
 * read as a station: of 20 to 22 there is 20 first, and 22 last. 27 count not 1 to 4; then of any feeder up to the count 1 limit not 1
 * to 60; 2 percent above 100; 3 a bound of 0; 19 tail above 5; then 28 site not 1 to 720; 22 several feeders, which no image holds. */
uint32_t togbeyis_open(uint8_t *image, size_t length, uint32_t count, uint32_t site, const uint32_t *settings, size_t numbers,
                       uint32_t *bound, uint32_t *blocks);

/* Shows in *start the earliest start of an order; the image stays. 29 feeder not 1; 4 line not 1 to 3; 5 time not 1 to 1,440; 17 rate
 * not 1 or 2; 18 rate above limit, bound or site limit; 6 due above 2,000,000; 13 180 charges held; 14 65,535 tickets given. */
uint32_t togbeyis_preview(uint8_t *image, size_t length, uint32_t feeder, uint32_t line, uint32_t time, uint32_t due,
                          uint32_t rate, uint32_t *start, uint32_t *blocks);

/* Takes an order with the start shown, and tells its *ticket and *start. As a preview's refusals; then 16 the start shown is
 * not the earliest one now. */
uint32_t togbeyis_commit(uint8_t *image, size_t length, uint32_t feeder, uint32_t line, uint32_t time, uint32_t due,
                         uint32_t rate, uint32_t shown, uint32_t *ticket, uint32_t *start, uint32_t *blocks);

/* Moves the clock. The report begins with *reported pairs, ticket and start, by start and then ticket; its later places stay.
 * *dropped charges were finished and are gone. 8 target above 1,000,000; 9 places under 360; 12 target below the clock. */
uint32_t togbeyis_move(uint8_t *image, size_t length, uint32_t target, uint32_t *report, size_t places, size_t *reported,
                       size_t *dropped, uint32_t *blocks);

/* Offers a plan: a start for each waiting charge, in ticket order. *cause 0: taken; else the plan held stays, and the cause is 3 a
 * start below the clock, 4 the site would draw longer, 5 a count above the limit, or the site above its own, 6 a difference above the
 * bound, 7 not less late. *before and *after: the lateness of all held charges. *rounds 0. 29 feeder not 1; 10 count is not that of the
 * waiting charges. */
uint32_t togbeyis_offer(uint8_t *image, size_t length, uint32_t feeder, const uint32_t *starts, size_t count,
                        uint32_t *cause, uint64_t *before, uint64_t *after, uint32_t *rounds, uint32_t *blocks);

/* Replans by latest start; as an offer, and cause 1 no start found. 29 feeder not 1. */
uint32_t togbeyis_latest(uint8_t *image, size_t length, uint32_t feeder, uint32_t *cause, uint64_t *before,
                         uint64_t *after, uint32_t *rounds, uint32_t *blocks);

/* Replans by lines; as by latest start, cause 2 allowance spent, and *rounds made. 29 feeder not 1; 11 allowance not 1 to 1,000. */
uint32_t togbeyis_lines(uint8_t *image, size_t length, uint32_t feeder, uint32_t allowance, uint32_t *cause,
                        uint64_t *before, uint64_t *after, uint32_t *rounds, uint32_t *blocks);

/* Tells of a charge; the image stays. *charging 0: it waits for its *start, and *end is left as it is; 1: it has begun, and *end is
 * its start + time. *rate is 1 or 2. 15 no held charge has this ticket. */
uint32_t togbeyis_enquire(uint8_t *image, size_t length, uint32_t ticket, uint32_t *charging, uint32_t *start,
                          uint32_t *rate, uint32_t *end, uint32_t *blocks);

/* Tells the board's starts: answers begins with the start of each ticket asked for, or 4,294,967,295 for one that is not held, and its
 * later places stay; *looked is how many held charges have a ticket not above the highest asked. The image stays. 23 the tickets do not
 * rise strictly or are more than 180; 24 places under count. */
uint32_t togbeyis_board(uint8_t *image, size_t length, const uint32_t *asked, size_t count, uint32_t *answers,
                        size_t places, size_t *looked, uint32_t *blocks);

/* Withdraws an order that waits: its charge is gone and its place free. 15 no held charge has this ticket; 25 the charge has begun;
 * 26 the rest would not be sound. */
uint32_t togbeyis_withdraw(uint8_t *image, size_t length, uint32_t ticket, uint32_t *blocks);

#ifdef __cplusplus
}
#endif

#endif

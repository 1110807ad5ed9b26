/* Volumes as a store leaves them: random changes, images, backups and notes, then damage. For the tests of the C
 * functions; shares no code with the store. */
#ifndef HISTORY_H
#define HISTORY_H

#include "volume.h"

/* The next random number below n; the same seed gives the same numbers. */
void seed(uint32_t number);
uint32_t below(uint32_t n);

/* A random volume's counts, with at least so many log slots. */
struct counts any_counts(uint32_t records);

/* Fills a volume of these counts under the heading: so many durable log records (at most c.records), images stored and
 * noted on the way, then images torn or put back to older ones. Record 1 is in the log. */
void history(uint8_t *volume, struct counts c, uint32_t durable);

/* The next history's changes are those of this number, whatever else is random, and from log record `from` on (0: none)
 * those of another. Two histories with as many pages and the same number have the same changes. */
void changes_of(uint32_t number, uint32_t from, uint32_t another);

/* Runs the tests under the first heading, then under the second. */
void under_each_heading(void (*tests)(void));

/* A ring that has turned: P 2, B 2, L 4, N 4, records 2 to 5 of page 1, whose backup at 2 is noted. Page 2 is blank. */
extern const struct counts TURNED;
void turned(uint8_t *volume);

#endif

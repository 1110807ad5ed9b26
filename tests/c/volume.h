/* Volumes built by hand, for the tests of the C function. Shares no code with the store. */
#ifndef VOLUME_H
#define VOLUME_H

#include <stddef.h>
#include <stdint.h>

enum { FORMAT = 1, PUT = 2, SLIDE = 3 };  /* kinds of a log record */
enum { WRITTEN = 1, BACKED_UP = 2 };      /* kinds of a note */

/* The counts of a volume, and where its items lie. */
struct counts {
    uint32_t pages, slots, records, notes;
};

size_t size_of(struct counts c);
size_t page_at(uint32_t n);
size_t slot_at(struct counts c, uint32_t n);
size_t record_at(struct counts c, uint32_t n);
size_t note_at(struct counts c, uint32_t n);

/* The heading of the volumes that are built: CHPV, under which images sum words, or CHP2, under which they sum bytes.
 */
extern const char *heading;

/* Sets the checksum behind the first n bytes, over words. */
void seal(uint8_t *item, size_t n);

/* Sets an image's sum, by the heading. */
void seal_image(uint8_t *image);

/* Zeros, with magic and counts. */
void make(uint8_t *volume, struct counts c);

/* An image with a body of one byte; a record with offset 0; a note. Each gets its checksum. */
void image(uint8_t *at, uint32_t page, uint32_t lsn, uint8_t fill);
void record(uint8_t *at, uint32_t lsn, uint32_t prev, uint32_t page, int kind, uint8_t fill, const char *bytes);
void note(uint8_t *at, uint32_t number, uint32_t page, int kind, int slot, uint32_t lsn);

/* Fills the log with one chain: a format of the page with zeros, then slides of one byte, the low byte of the lsn. */
void chain(uint8_t *volume, struct counts c, uint32_t page);

/* What inspection of that page must give. */
void chain_image(uint8_t *expected, struct counts c, uint32_t page);

#endif

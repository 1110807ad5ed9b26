/* Plays the cases K6 to K12 and every refusal of inspection through the C functions, under each heading. Prints a line
 * a case; exits with 1 if one fails. */
#include "pagestore.h"
#include "volume.h"

#include <stdio.h>
#include <stdlib.h>
#include <string.h>

/* ---- the volume of the cases ---- */

static const struct counts CASES = {2, 1, 4, 4};
enum { SIZE = 20 + 256 * (2 + 1) + 64 * 4 + 16 * 4 };

/* Records 1 format page 1, 2 format page 2, 3 put "AB" on page 1; page 1's image at `lsn`; page 2 good. */
static void base(uint8_t *volume, uint32_t lsn) {
    make(volume, CASES);
    record(volume + record_at(CASES, 1), 1, 0, 1, FORMAT, 7, "");
    record(volume + record_at(CASES, 2), 2, 0, 2, FORMAT, 9, "");
    record(volume + record_at(CASES, 3), 3, 1, 1, PUT, 0, "AB");
    image(volume + page_at(1), 1, lsn, 7);
    image(volume + page_at(2), 2, 2, 9);
}

/* ---- the checks ---- */

static int failures;

static void check(const char *name, int holds) {
    printf("%s %s %s\n", holds ? "ok    " : "FAILED", heading, name);
    if (!holds) failures++;
}

/* Inspection gives page 1 at lsn 3 with body "AB", then sevens; or at lsn 1 all sevens. */
static int shows(const uint8_t *volume, uint32_t lsn) {
    uint8_t buffer[256], expected[256];
    memset(buffer, 0xee, 256);
    image(expected, 1, lsn, 7);
    if (lsn == 3) {
        memcpy(expected + 8, "AB", 2);
        seal_image(expected);
    }
    return pagestore_inspect(volume, SIZE, 1, buffer, 256) == PAGESTORE_OK && memcmp(buffer, expected, 256) == 0;
}

/* A refusal leaves the buffer as it was. */
static int refuses(const uint8_t *volume, size_t size, uint32_t page, size_t buffer_len, uint32_t number) {
    uint8_t buffer[300];
    memset(buffer, 0xee, sizeof buffer);
    uint32_t answer = pagestore_inspect(volume, size, page, buffer, buffer_len);
    for (size_t i = 0; i < sizeof buffer; i++)
        if (buffer[i] != 0xee) return 0;
    return answer == number;
}

/* pagestore_examine gives what pagestore_inspect gives, and this class, start and count. */
static int tells(const uint8_t *volume, uint32_t class, uint32_t start, uint32_t count) {
    uint8_t seen[256], examined[256];
    uint32_t report[3] = {99, 99, 99};
    uint32_t inspected = pagestore_inspect(volume, SIZE, 1, seen, 256);
    uint32_t answer = pagestore_examine(volume, SIZE, 1, examined, 256, report, 3);
    return inspected == PAGESTORE_OK && answer == PAGESTORE_OK && memcmp(seen, examined, 256) == 0 &&
           report[PAGESTORE_REPORT_CLASS] == class && report[PAGESTORE_REPORT_START] == start &&
           report[PAGESTORE_REPORT_COUNT] == count;
}

/* pagestore_examine is refused and leaves buffer and report. */
static int untold(const uint8_t *volume, size_t size, size_t report_len, uint32_t number) {
    uint8_t buffer[256];
    uint32_t report[4] = {99, 99, 99, 99};
    memset(buffer, 0xee, 256);
    uint32_t answer = pagestore_examine(volume, size, 1, buffer, 256, report, report_len);
    for (size_t i = 0; i < 256; i++)
        if (buffer[i] != 0xee) return 0;
    for (size_t i = 0; i < 4; i++)
        if (report[i] != 99) return 0;
    return answer == number;
}

static void cases(uint8_t *v) {
    uint8_t *own = v + page_at(1), *slot = v + slot_at(CASES, 1), *first = v + note_at(CASES, 1);
    base(v, 1);
    check("K6  image at 1, no note: repaired to 3", shows(v, 3));
    check("K6: class, start and count", tells(v, PAGESTORE_BEHIND, PAGESTORE_FROM_OWN, 1));
    note(first, 1, 1, WRITTEN, 0, 3);
    check("K7  image at 1, written note 3: repaired to 3", shows(v, 3));
    check("K7: class, start and count", tells(v, PAGESTORE_STALE, PAGESTORE_FROM_OWN, 1));
    base(v, 1);
    own[100] ^= 1;
    image(slot, 1, 3, 7);
    memcpy(slot + 8, "AB", 2);
    seal_image(slot);
    note(first, 1, 1, BACKED_UP, 1, 3);
    check("K8  image fails, backup at 3 noted", shows(v, 3));
    check("K8: class, start and count", tells(v, PAGESTORE_FAILED, PAGESTORE_FROM_BACKUP, 0));
    base(v, 1);
    own[100] ^= 1;
    check("K9  image fails, no backup", shows(v, 3));
    check("K9: class, start and count", tells(v, PAGESTORE_FAILED, PAGESTORE_FROM_FORMAT, 2));
    base(v, 4);
    check("K10 image at 4: rebuilt from the format", shows(v, 3));
    check("K10: class, start and count", tells(v, PAGESTORE_AHEAD, PAGESTORE_FROM_FORMAT, 2));
    base(v, 1);
    v[record_at(CASES, 3) + 16] ^= 1;
    check("K11 record 3 torn, image at 1: good", shows(v, 1));
    check("K11: class, start and count", tells(v, PAGESTORE_GOOD, PAGESTORE_FROM_OWN, 0));
    v[record_at(CASES, 4) + 5] = 1;
    check("K12 slot 3 torn, slot 4 not zero: 17", refuses(v, SIZE, 1, 256, PAGESTORE_BAD_LOG));
}

/* A word of 0000 in page 1's image at 3 reads FFFF: the byte sum is wrong, so that the page is rebuilt; the word sum
 * does not tell them apart. */
static void words(uint8_t *v) {
    uint8_t buffer[256];
    base(v, 3);
    memset(v + page_at(1) + 8, 0, 2);
    seal_image(v + page_at(1));
    memset(v + page_at(1) + 8, 0xff, 2);
    uint32_t answer = pagestore_inspect(v, SIZE, 1, buffer, 256);
    int erased = buffer[8] == 0xff && buffer[9] == 0xff, repaired = memcmp(buffer + 8, "AB", 2) == 0;
    check("an erased word", answer == PAGESTORE_OK && (heading[3] == 'V' ? erased : repaired));
    base(v, 1);
    v[3] = 'W';
    check("an unknown heading: 1", refuses(v, SIZE, 1, 256, PAGESTORE_BAD_VOLUME));
}

static void refusals(uint8_t *v) {
    base(v, 1);
    check("a volume one byte short: 1", refuses(v, SIZE - 1, 1, 256, PAGESTORE_BAD_VOLUME));
    check("examined, a volume one byte short: 1", untold(v, SIZE - 1, 3, PAGESTORE_BAD_VOLUME));
    check("examined, that and a report of 4: 1", untold(v, SIZE - 1, 4, PAGESTORE_BAD_VOLUME));
    check("examined, a report of 2: 2", untold(v, SIZE, 2, PAGESTORE_BAD_BUFFER));
    check("examined, a report of 4: 2", untold(v, SIZE, 4, PAGESTORE_BAD_BUFFER));
    check("no volume: 1", refuses(NULL, 0, 1, 256, PAGESTORE_BAD_VOLUME));
    v[0] = 0;
    check("wrong magic: 1", refuses(v, SIZE, 1, 256, PAGESTORE_BAD_VOLUME));
    base(v, 1);
    check("a buffer one byte short: 2", refuses(v, SIZE, 1, 255, PAGESTORE_BAD_BUFFER));
    check("a buffer one byte long: 2", refuses(v, SIZE, 1, 257, PAGESTORE_BAD_BUFFER));
    check("page 0: 3", refuses(v, SIZE, 0, 256, PAGESTORE_NO_SUCH_PAGE));
    check("page 3: 3", refuses(v, SIZE, 3, 256, PAGESTORE_NO_SUCH_PAGE));
    check("page 4294967295: 3", refuses(v, SIZE, 4294967295u, 256, PAGESTORE_NO_SUCH_PAGE));
    note(v + note_at(CASES, 1), 1, 1, WRITTEN, 1, 3);
    check("a written note with a slot: 18", refuses(v, SIZE, 1, 256, PAGESTORE_BAD_NOTES));
    base(v, 1);
    memset(v + record_at(CASES, 1), 0, 256);
    check("an empty log: 7", refuses(v, SIZE, 1, 256, PAGESTORE_BLANK_PAGE));
    record(v + record_at(CASES, 1), 1, 0, 2, FORMAT, 9, "");
    check("no record of page 1: 7", refuses(v, SIZE, 1, 256, PAGESTORE_BLANK_PAGE));
}

/* One chain of 1,024 records of page 64 in the largest volume. */
static void full(void) {
    const struct counts most = {64, 128, 1024, 1024};
    static uint8_t v[PAGESTORE_VOLUME_MAX];
    uint8_t buffer[256], expected[256];
    check("the largest volume's size", size_of(most) == sizeof v);
    make(v, most);
    chain(v, most, 64);
    chain_image(expected, most, 64);
    uint32_t answer = pagestore_inspect(v, sizeof v, 64, buffer, 256);
    check("a full volume, a chain of 1,024 records", answer == PAGESTORE_OK && memcmp(buffer, expected, 256) == 0);
    check("a full volume, a blank page: 7", refuses(v, sizeof v, 1, 256, PAGESTORE_BLANK_PAGE));
}

/* B 0 and N 0. */
static void smallest(void) {
    const struct counts least = {1, 0, 1, 0};
    uint8_t v[20 + 256 + 64], buffer[256], expected[256];
    make(v, least);
    record(v + record_at(least, 1), 1, 0, 1, FORMAT, 5, "");
    image(expected, 1, 1, 5);
    uint32_t answer = pagestore_inspect(v, sizeof v, 1, buffer, 256);
    check("the smallest volume, no slots and no notes", answer == PAGESTORE_OK && memcmp(buffer, expected, 256) == 0);
}

int main(void) {
    static uint8_t volume[SIZE];
    const char *headings[] = {"CHPV", "CHP2"};
    for (int i = 0; i < 2; i++) {
        heading = headings[i];
        cases(volume);
        words(volume);
        refusals(volume);
        full();
        smallest();
    }
    printf("%s\n", failures ? "some cases FAILED" : "all cases hold");
    return failures ? 1 : 0;
}

/* The log archive through its C functions: refusals, a full volume, and many volumes archived, read back and compared
 * with inspection page by page. Exits with 1 if one fails. */
#include "check.h"
#include "history.h"
#include "pagestore.h"

#include <string.h>

static uint8_t volume[PAGESTORE_VOLUME_MAX];
static uint8_t archive[PAGESTORE_ARCHIVE_MAX + 4], area[PAGESTORE_AREA_MAX + 256];

static int untouched(const uint8_t *bytes, size_t length) {
    for (size_t i = 0; i < length; i++)
        if (bytes[i] != 0xee) return 0;
    return 1;
}

/* The writer gives the number and writes nothing. */
static int unwritten(size_t size, size_t buffer, uint32_t number) {
    memset(archive, 0xee, sizeof archive);
    uint32_t answer = pagestore_archive_write(volume, size, archive, buffer);
    return answer == number && untouched(archive, sizeof archive);
}

/* The reader gives the number and writes nothing. */
static int unread(const uint8_t *bytes, size_t length, size_t room, uint32_t number) {
    memset(area, 0xee, sizeof area);
    return pagestore_archive_read(bytes, length, area, room) == number && untouched(area, sizeof area);
}

/* A page of the area is what inspection gives, but for the checksum; a blank page is zeros. */
static int same_page(struct counts c, uint32_t page) {
    static const uint8_t zeros[256];
    uint8_t image[PAGESTORE_IMAGE_SIZE];
    const uint8_t *read = area + 256 * (page - 1);
    uint32_t answer = pagestore_inspect(volume, size_of(c), page, image, sizeof image);
    if (answer == PAGESTORE_BLANK_PAGE) return memcmp(read, zeros, 256) == 0;
    memset(image + 252, 0, 4);
    return answer == PAGESTORE_OK && memcmp(read, image, 256) == 0;
}

/* The volume is archived, read back and compared, and its archive fits no other number of pages. */
static int comes_back(struct counts c, uint32_t durable) {
    uint32_t length = pagestore_archive_length(volume, size_of(c));
    if (length != 4 * c.pages + 64 * durable) return 0;
    if (!unwritten(size_of(c), length - 1, PAGESTORE_BAD_LENGTH)) return 0;
    if (pagestore_archive_write(volume, size_of(c), archive, length) != PAGESTORE_OK) return 0;
    if (pagestore_archive_pages(archive, length) != c.pages) return 0;
    if (c.pages < 64 && !unread(archive, length, 256 * (c.pages + 1), PAGESTORE_BAD_ARCHIVE)) return 0;
    if (c.pages > 1 && !unread(archive, length, 256 * (c.pages - 1), PAGESTORE_BAD_ARCHIVE)) return 0;
    memset(area, 0xee, sizeof area);
    if (pagestore_archive_read(archive, length, area, 256 * c.pages) != PAGESTORE_OK) return 0;
    for (uint32_t page = 1; page <= c.pages; page++)
        if (!same_page(c, page)) return 0;
    return untouched(area + 256 * c.pages, sizeof area - 256 * c.pages);
}

/* One byte changed anywhere in an archive, or one cut off: no longer taken. (The word sum cannot tell 0000 from FFFF,
 * so no byte becomes 00 or FF.) */
static int damaged(struct counts c) {
    uint32_t length = pagestore_archive_length(volume, size_of(c)), at = below(length);
    if (pagestore_archive_write(volume, size_of(c), archive, length) != PAGESTORE_OK) return 0;
    archive[at] = archive[at] == 0x55 ? 0x56 : 0x55;
    if (!unread(archive, length, 256 * c.pages, PAGESTORE_BAD_ARCHIVE)) return 0;
    return unread(archive, below(length), 256 * c.pages, PAGESTORE_BAD_ARCHIVE);
}

static int many(uint32_t volumes) {
    for (uint32_t i = 1; i <= volumes; i++) {
        seed(i);
        struct counts c = any_counts(1 + below(60));
        uint32_t durable = below(c.records + 1);
        history(volume, c, durable);
        if (!comes_back(c, durable) || !damaged(c)) return 0;
    }
    return 1;
}

static void full(void) {
    const struct counts most = {64, 128, 1024, 1024};
    make(volume, most);
    chain(volume, most, 64);
    check("the largest archive", comes_back(most, 1024) && 4 * 64 + 64 * 1024 == PAGESTORE_ARCHIVE_MAX);
    const struct counts least = {1, 0, 1, 0};
    make(volume, least);
    check("the smallest, of a blank page", comes_back(least, 0));
}

static void refusals(void) {
    const struct counts c = {2, 1, 4, 4};
    size_t size = size_of(c), length = 8 + 64 * 2;
    make(volume, c);
    record(volume + record_at(c, 1), 1, 0, 1, FORMAT, 7, "");
    record(volume + record_at(c, 2), 2, 1, 1, PUT, 0, "AB");
    check("a volume one byte short: 1", unwritten(size - 1, length, PAGESTORE_BAD_VOLUME));
    check("its length: 0", pagestore_archive_length(volume, size - 1) == 0);
    check("a buffer one byte short: 21", unwritten(size, length - 1, PAGESTORE_BAD_LENGTH));
    check("a buffer one byte long: 21", unwritten(size, length + 1, PAGESTORE_BAD_LENGTH));
    check("its length", pagestore_archive_length(volume, size) == length);
    pagestore_archive_write(volume, size, archive, length);
    static uint8_t copy[sizeof archive];
    memcpy(copy, archive, length);
    check("an area of 0 bytes: 2", unread(copy, length, 0, PAGESTORE_BAD_BUFFER));
    check("an area of 257 bytes: 2", unread(copy, length, 257, PAGESTORE_BAD_BUFFER));
    check("an area of 65 images: 2", unread(copy, length, 65 * 256, PAGESTORE_BAD_BUFFER));
    check("an area of 1 image: 22", unread(copy, length, 256, PAGESTORE_BAD_ARCHIVE));
    memset(copy, 0, 4);
    copy[3] = 4;
    check("a count whose bytes wrap to 0: 22", unread(copy, length, 512, PAGESTORE_BAD_ARCHIVE));
    check("its pages: 0", pagestore_archive_pages(copy, length) == 0);
    check("no archive: 22", unread(NULL, 0, 256, PAGESTORE_BAD_ARCHIVE));
    check("the pages of no archive: 0", pagestore_archive_pages(NULL, 0) == 0);
    note(volume + note_at(c, 1), 1, 1, WRITTEN, 1, 2);
    check("a written note with a slot: 18", unwritten(size, length, PAGESTORE_BAD_NOTES));
    volume[record_at(c, 1) + 20] ^= 1;
    check("record 1 torn: 17", unwritten(size, length, PAGESTORE_BAD_LOG));
    if (heading[3] == 'V') return;
    turned(volume);
    check("record 1 has left the log: 24", unwritten(size_of(TURNED), 1, PAGESTORE_HISTORY_LOST));
    check("its length: 0", pagestore_archive_length(volume, size_of(TURNED)) == 0);
}

static void tests(void) {
    refusals();
    full();
    check("2,000 volumes archived, read back and compared with inspection", many(2000));
}

int main(void) {
    under_each_heading(tests);
    return verdict();
}

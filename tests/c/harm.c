#define _GNU_SOURCE
#include "harm.h"

#include <fcntl.h>
#include <stdio.h>
#include <stdlib.h>
#include <string.h>
#include <unistd.h>

enum { EARLIER = 4, PLACES = 32 };  /* images remembered for each place, and the most places */

struct harmed harmed;
static const char *path;
static int guarded;
static struct {
    uint32_t count;
    uint8_t image[EARLIER][256];
} earlier[PLACES];

void harm_begin(const char *volume, int ring) {
    path = volume;
    guarded = ring;
    memset(earlier, 0, sizeof earlier);
}

static void must(int holds, const char *what) {
    if (holds) return;
    perror(what);
    exit(2);
}

/* ---- the cut */

static uint8_t cache[DISK_MAX], candidate[DISK_MAX];

static void read_cache(void) {
    size_t size = size_of(disk->counts);
    int fd = open(path, O_RDONLY | O_CLOEXEC);
    must(fd >= 0 && read(fd, cache, size) == (ssize_t)size && close(fd) == 0, path);
}

/* The image in its place is valid as the page's, and its number. */
static int valid(const uint8_t *volume, size_t offset, uint32_t page, uint32_t *lsn) {
    *lsn = number_at(volume + offset + 4, 4);
    return passes(volume, item_of(disk->counts, (uint32_t)offset)) && number_at(volume + offset, 4) == page;
}

/* What a ring counts on (document 02, §7): for each page with a noted backup, that backup or an own image as new. */
static int repairable(const uint8_t *volume) {
    struct counts c = disk->counts;
    for (uint32_t page = 1; page <= c.pages; page++) {
        uint32_t newest = 0, slot = 0, noted = 0, lsn;
        for (uint32_t n = 1; n <= c.notes; n++) {
            const uint8_t *at = volume + note_at(c, n);
            int counts = passes(volume, item_of(c, (uint32_t)note_at(c, n))) && at[6] == BACKED_UP;
            if (!counts || number_at(at + 4, 2) != page || number_at(at, 4) <= newest) continue;
            newest = number_at(at, 4), slot = at[7], noted = number_at(at + 8, 4);
        }
        if (newest == 0 || (valid(volume, slot_at(c, slot), page, &lsn) && lsn == noted)) continue;
        if (!valid(volume, page_at(page), page, &lsn) || lsn < noted) return 0;
    }
    return 1;
}

static void fill_random(uint8_t *bytes, size_t count) {
    for (size_t i = 0; i < count; i++) bytes[i] = (uint8_t)random_below(256);
}

/* The item as the cut leaves it, from what was stored (candidate) and what was written (cache). */
static void leave(struct item item) {
    uint8_t *at = candidate + item.offset, *new = cache + item.offset;
    uint32_t half = item.length / 2, sector = (item.offset / 512 + 1) * 512 - item.offset;
    uint32_t how = random_below(item.kind == HEADING ? 2 : 7);
    if (how == 1) memcpy(at, new, item.length);
    if (how == 2 || how == 3) memcpy(at, new, half);
    if (how == 3) fill_random(at + half, item.length - half);
    if (how == 4) memcpy(at + half, new + half, item.length - half);
    if (how == 5) memcpy(at, new, 1 + random_below(item.length - 1));
    if (how == 6 && sector < item.length) memcpy(at, new, sector);
}

/* The items that are dirty: one, unless the file layer is wrong. */
static int one_item(struct item item) {
    for (uint32_t i = 0; i < disk->dirty_count; i++) {
        uint32_t start = disk->dirty[i].offset, end = start + disk->dirty[i].length;
        if (start < item.offset || end > item.offset + item.length) return 0;
    }
    return 1;
}

/* A layer that leaves more than an item unsynced gets what a disk may do: each write is there or not. */
static void leave_many(void) {
    for (uint32_t i = 0; i < disk->dirty_count; i++) {
        uint32_t start = disk->dirty[i].offset, length = disk->dirty[i].length;
        if (random_below(2) == 0 && start + length <= DISK_MAX) memcpy(candidate + start, cache + start, length);
    }
}

static void count_cut(struct item item) {
    const uint8_t *old = disk->bytes + item.offset;
    enum left left = passes(candidate, item) ? NEW : TORN;
    if (memcmp(candidate + item.offset, old, item.length) == 0) left = OLD;
    harmed.cut[item.kind][left]++;
}

/* The power is cut, or only the process is dead: then what it wrote lies in the cache. What a cut may leave is old, new
 * or failing its check, and no image that a ring counts on is torn while its other one is damaged. */
void cut_off(int power) {
    size_t size = size_of(disk->counts);
    read_cache();
    memcpy(candidate, disk->bytes, size);
    struct item item = item_of(disk->counts, disk->dirty[0].offset);
    if (disk->dirty_count > 0 && !one_item(item)) leave_many();
    else if (disk->dirty_count > 0) {
        if (power) leave(item);
        else memcpy(candidate + item.offset, cache + item.offset, item.length);
        int new = memcmp(candidate + item.offset, cache + item.offset, item.length) == 0;
        int old = memcmp(candidate + item.offset, disk->bytes + item.offset, item.length) == 0;
        int chance = !new && !old && passes(candidate, item), spared = guarded && !repairable(candidate);
        harmed.by_chance += (unsigned long)chance;
        harmed.spared += (unsigned long)spared;
        if (chance || spared) memcpy(candidate, disk->bytes, size), power = 1;
        count_cut(item);
    }
    if (!power) return;
    memcpy(disk->bytes, candidate, size);
    drop_cache(path);
}

/* ---- damage */

static struct item place(uint32_t n) {
    struct counts c = disk->counts;
    return item_of(c, (uint32_t)(n <= c.pages ? page_at(n) : slot_at(c, n - c.pages)));
}

/* An image that passes was stored in its place by the store. */
static void remember(uint32_t n) {
    const uint8_t *at = disk->bytes + place(n).offset;
    if (n >= PLACES || !passes(disk->bytes, place(n))) return;
    if (memcmp(earlier[n].image[(earlier[n].count + EARLIER - 1) % EARLIER], at, 256) == 0) return;
    memcpy(earlier[n].image[earlier[n].count++ % EARLIER], at, 256);
}

static void harm(uint32_t n, enum damage how) {
    uint8_t *at = candidate + place(n).offset;
    uint32_t held = earlier[n].count < EARLIER ? earlier[n].count : EARLIER;
    if (how == EARLIER_IMAGE && held > 0) memcpy(at, earlier[n].image[random_below(held)], 256);
    if (how == RANDOM_BYTES) fill_random(at, 256);
    if (how == ONE_BYTE) at[random_below(256)] ^= (uint8_t)(1 + random_below(255));
    if (how == ERASED) memset(at, random_below(2) == 0 ? 0 : 255, 256);
}

/* Leaves an image failing its check, or puts back one that was stored there earlier; never both of a page of a ring. */
void damage(void) {
    uint32_t places = disk->counts.pages + disk->counts.slots;
    size_t size = size_of(disk->counts);
    for (uint32_t n = 1; n <= places && n < PLACES; n++) {
        remember(n);
        if (random_below(6) > 0) continue;
        enum damage how = random_below(DAMAGES);
        memcpy(candidate, disk->bytes, size);
        harm(n, how);
        if (memcmp(candidate, disk->bytes, size) == 0) continue;
        if (how != EARLIER_IMAGE && passes_either(candidate, place(n))) continue;
        if (guarded && !repairable(candidate)) continue;
        memcpy(disk->bytes, candidate, size);
        harmed.damaged[how]++;
    }
    drop_cache(path);
}

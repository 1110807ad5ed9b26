/* The forecast through its C function: refusals, worked figures, and on many volumes what inspection reports. Exits
 * with 1 if one fails. */
#include "check.h"
#include "history.h"
#include "pagestore.h"

#include <string.h>

enum { FIGURES = 128 };
static const struct counts CASES = {2, 1, 4, 4};
static uint8_t volume[PAGESTORE_VOLUME_MAX];

/* Refused with this number, the figures as they were. */
static int refuses(size_t size, size_t length, uint32_t number) {
    uint32_t figures[FIGURES + 1];
    memset(figures, 0xee, sizeof figures);
    uint32_t answer = pagestore_forecast(volume, size, figures, length);
    for (size_t i = 0; i <= FIGURES; i++)
        if (figures[i] != 0xeeeeeeee) return 0;
    return answer == number;
}

/* The page's refusal and count. */
static int foretells(struct counts c, uint32_t page, uint32_t refusal, uint32_t count) {
    uint32_t figures[FIGURES];
    uint32_t answer = pagestore_forecast(volume, size_of(c), figures, FIGURES);
    return answer == PAGESTORE_OK && figures[2 * page - 2] == refusal && figures[2 * page - 1] == count;
}

static void base(void) {
    make(volume, CASES);
    record(volume + record_at(CASES, 1), 1, 0, 1, FORMAT, 7, "");
    record(volume + record_at(CASES, 2), 2, 1, 1, PUT, 0, "AB");
    record(volume + record_at(CASES, 3), 3, 2, 1, SLIDE, 0, "C");
}

static void refusals(void) {
    size_t size = size_of(CASES);
    base();
    check("forecast, a volume one byte short: 1", refuses(size - 1, FIGURES, PAGESTORE_BAD_VOLUME));
    check("forecast, that and 127 figures: 1", refuses(size - 1, FIGURES - 1, PAGESTORE_BAD_VOLUME));
    check("forecast, 127 figures: 2", refuses(size, FIGURES - 1, PAGESTORE_BAD_BUFFER));
    check("forecast, 129 figures: 2", refuses(size, FIGURES + 1, PAGESTORE_BAD_BUFFER));
    note(volume + note_at(CASES, 1), 1, 1, WRITTEN, 1, 3);
    check("forecast, a written note with a slot: 18", refuses(size, FIGURES, PAGESTORE_BAD_NOTES));
    volume[record_at(CASES, 2) + 16] ^= 1;
    check("forecast, record 2 torn: 17", refuses(size, FIGURES, PAGESTORE_BAD_LOG));
}

static void figures(void) {
    base();
    check("forecast, from the format: 3", foretells(CASES, 1, 0, 3));
    check("forecast, a blank page: 0", foretells(CASES, 2, 0, 0));
    check("forecast, past the last page: 0", foretells(CASES, 64, 0, 0));
    image(volume + slot_at(CASES, 1), 1, 2, 7);
    check("forecast, a backup that is not noted: 3", foretells(CASES, 1, 0, 3));
    note(volume + note_at(CASES, 1), 1, 1, BACKED_UP, 1, 2);
    check("forecast, the noted backup at 2: 1", foretells(CASES, 1, 0, 1));
    volume[slot_at(CASES, 1) + 9] ^= 1;
    check("forecast, that backup torn: 3", foretells(CASES, 1, 0, 3));
    image(volume + page_at(1), 1, 3, 7);
    check("forecast, the own image current: 0", foretells(CASES, 1, 0, 0));
    if (heading[3] == 'V') return;
    turned(volume);
    check("forecast, a ring past record 1, a backup at 2: 3", foretells(TURNED, 1, 0, 3));
    volume[slot_at(TURNED, 1) + 9] ^= 1;
    check("forecast, that backup torn: 23", foretells(TURNED, 1, PAGESTORE_PAGE_LOST, 0));
}

/* The page's figure is inspection's count, or its refusal 23; 0 for a blank page. */
static int exact(struct counts c, uint32_t page, const uint32_t *figures) {
    uint8_t image[PAGESTORE_IMAGE_SIZE];
    uint32_t report[PAGESTORE_REPORT_SIZE];
    uint32_t refusal = figures[2 * page - 2], count = figures[2 * page - 1];
    uint32_t answer = pagestore_examine(volume, size_of(c), page, image, sizeof image, report, PAGESTORE_REPORT_SIZE);
    if (answer == PAGESTORE_BLANK_PAGE) return refusal == 0 && count == 0;
    if (answer == PAGESTORE_PAGE_LOST) return refusal == PAGESTORE_PAGE_LOST && count == 0;
    return answer == PAGESTORE_OK && refusal == 0 && count == report[PAGESTORE_REPORT_COUNT];
}

static int many(uint32_t volumes) {
    for (uint32_t i = 1; i <= volumes; i++) {
        uint32_t rows[FIGURES];
        seed(i);
        struct counts c = any_counts(1 + below(30));
        history(volume, c, below(c.records + 1));
        if (pagestore_forecast(volume, size_of(c), rows, FIGURES) != PAGESTORE_OK) return 0;
        for (uint32_t page = 1; page <= c.pages; page++)
            if (!exact(c, page, rows)) return 0;
    }
    return 1;
}

static void tests(void) {
    refusals();
    figures();
    check("forecast, 2,000 volumes: inspection's counts", many(2000));
}

int main(void) {
    under_each_heading(tests);
    return verdict();
}

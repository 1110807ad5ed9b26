/* Two logs compared through the C function: refusals, each answer, and on many pairs of volumes what the two histories
 * give; a page that is not listed shows the same from both. Exits with 1 if one fails. */
#include "check.h"
#include "history.h"
#include "pagestore.h"

#include <string.h>

enum { NUMBERS = 66, AGREE = 1, FIRST = 2, SECOND = 3, DIFFER = 4 };
static const struct counts CASES = {2, 1, 6, 4};
static uint8_t one[PAGESTORE_VOLUME_MAX], two[PAGESTORE_VOLUME_MAX];

/* Refused with this number whichever volume comes first, the report as it was. */
static int refuses(size_t first, size_t second, size_t length, uint32_t number) {
    uint32_t report[NUMBERS + 1];
    memset(report, 0xee, sizeof report);
    uint32_t answer = pagestore_compare(one, first, two, second, report, length);
    uint32_t turned_round = pagestore_compare(two, second, one, first, report, length);
    for (size_t i = 0; i <= NUMBERS; i++)
        if (report[i] != 0xeeeeeeee) return 0;
    return answer == number && turned_round == number;
}

/* The answer with its number, and the pages 1 to 64 whose bit in `pages` is set; first and second exchanged gives the
 * same, exchanged. */
static int tells(struct counts c, struct counts d, uint32_t kind, uint32_t number, uint64_t pages) {
    uint32_t report[NUMBERS], back[NUMBERS];
    uint32_t answer = pagestore_compare(one, size_of(c), two, size_of(d), report, NUMBERS);
    uint32_t turned_round = pagestore_compare(two, size_of(d), one, size_of(c), back, NUMBERS);
    uint32_t other = kind == FIRST ? SECOND : kind == SECOND ? FIRST : kind;
    for (uint32_t page = 1; page <= 64; page++)
        if (report[page + 1] != (uint32_t)(pages >> (page - 1) & 1) || back[page + 1] != report[page + 1]) return 0;
    return answer == PAGESTORE_OK && turned_round == PAGESTORE_OK && report[0] == kind && report[1] == number &&
           back[0] == other && back[1] == number;
}

/* The same three records in both volumes. */
static void base(void) {
    uint8_t *volumes[] = {one, two};
    for (int i = 0; i < 2; i++) {
        make(volumes[i], CASES);
        record(volumes[i] + record_at(CASES, 1), 1, 0, 1, FORMAT, 7, "");
        record(volumes[i] + record_at(CASES, 2), 2, 0, 2, FORMAT, 9, "");
        record(volumes[i] + record_at(CASES, 3), 3, 1, 1, PUT, 0, "AB");
    }
}

static void refusals(void) {
    size_t size = size_of(CASES);
    base();
    check("compare, one volume one byte short: 1", refuses(size, size - 1, NUMBERS, PAGESTORE_BAD_VOLUME));
    check("compare, that and a report of 65: 1", refuses(size, size - 1, NUMBERS - 1, PAGESTORE_BAD_VOLUME));
    check("compare, a report of 65: 2", refuses(size, size, NUMBERS - 1, PAGESTORE_BAD_BUFFER));
    check("compare, a report of 67: 2", refuses(size, size, NUMBERS + 1, PAGESTORE_BAD_BUFFER));
    note(one + note_at(CASES, 1), 1, 1, WRITTEN, 1, 3);
    check("compare, the notes of one are broken: 18", refuses(size, size, NUMBERS, PAGESTORE_BAD_NOTES));
    two[record_at(CASES, 2) + 16] ^= 1;
    check("compare, and the log of the other: 17", refuses(size, size, NUMBERS, PAGESTORE_BAD_LOG));
    if (heading[3] == 'V') return;
    base();
    turned(one);
    check("compare, record 1 has left one log: 24", refuses(size_of(TURNED), size, NUMBERS, PAGESTORE_HISTORY_LOST));
}

/* Record 3 of the second volume is another change. */
static int differs(uint32_t page, int kind, uint8_t fill, const char *bytes, uint32_t offset) {
    uint8_t *at = two + record_at(CASES, 3);
    base();
    record(at, 3, page, page, kind, fill, bytes);
    at[12] = (uint8_t)offset;
    seal(at, 60);
    return tells(CASES, CASES, DIFFER, 3, page == 1 ? 1 : 3);
}

static void answers(void) {
    const struct counts other = {3, 2, 8, 0};
    base();
    check("compare, the same log: agree", tells(CASES, CASES, AGREE, 0, 0));
    record(two + record_at(CASES, 4), 4, 2, 2, SLIDE, 0, "C");
    check("compare, one record more in the second: the first lacks 1", tells(CASES, CASES, FIRST, 1, 2));
    memcpy(one, two, sizeof one);
    make(two, other);
    check("compare, an empty log, other counts: it lacks 4", tells(CASES, other, SECOND, 4, 3));
    make(one, CASES);
    check("compare, two empty logs: agree", tells(CASES, other, AGREE, 0, 0));
    check("compare, another page", differs(2, PUT, 0, "AB", 0));
    check("compare, another kind", differs(1, SLIDE, 0, "AB", 0));
    check("compare, another range", differs(1, PUT, 0, "AB", 1));
    check("compare, another length", differs(1, PUT, 0, "ABC", 0));
    check("compare, other bytes", differs(1, PUT, 0, "AC", 0));
    check("compare, another fill", differs(1, FORMAT, 5, "", 0));
}

/* A page that both have and that is not listed: 7 from both, or the same body and number. */
static int same_page(struct counts c, struct counts d, uint32_t page) {
    uint8_t a[PAGESTORE_IMAGE_SIZE], b[PAGESTORE_IMAGE_SIZE];
    uint32_t first = pagestore_inspect(one, size_of(c), page, a, sizeof a);
    uint32_t second = pagestore_inspect(two, size_of(d), page, b, sizeof b);
    if (first == PAGESTORE_BLANK_PAGE) return second == PAGESTORE_BLANK_PAGE;
    return first == PAGESTORE_OK && second == PAGESTORE_OK && memcmp(a, b, 256) == 0;
}

/* Two stores of one seed: the same changes with other images, backups and notes. The second has `m` records, and where
 * `at` is one of them, from there on the changes of another seed. */
static int pair(uint32_t i, uint32_t n, uint32_t m, uint32_t at) {
    uint32_t report[NUMBERS], least = n < m ? n : m;
    seed(i);
    struct counts c = any_counts(30), d = {c.pages, below(8), 30 + below(6), below(40)};
    changes_of(i, 0, 0);
    history(one, c, n);
    changes_of(i, at, i + 7919);
    history(two, d, m);
    if (pagestore_compare(one, size_of(c), two, size_of(d), report, NUMBERS) != PAGESTORE_OK) return 0;
    uint32_t common = 0;
    while (common < least && memcmp(one + record_at(c, common + 1) + 8, two + record_at(d, common + 1) + 8, 52) == 0)
        common++;
    uint32_t kind = common == n ? (common == m ? AGREE : FIRST) : common == m ? SECOND : DIFFER;
    uint32_t number = kind == AGREE ? 0 : kind == FIRST ? m - n : kind == SECOND ? n - m : common + 1;
    if (report[0] != kind || report[1] != number || (at == 0 && kind == DIFFER)) return 0;
    for (uint32_t page = 1; page <= c.pages; page++)
        if (!report[page + 1] && !same_page(c, d, page)) return 0;
    return 1;
}

static int many(uint32_t pairs) {
    for (uint32_t i = 1; i <= pairs; i++) {
        seed(i + 104729);
        uint32_t n = below(30), m = i % 3 == 0 ? n : below(30), at = i % 2 ? 0 : 1 + below(30);
        if (!pair(i, n, m, at)) return 0;
    }
    return 1;
}

static void tests(void) {
    refusals();
    answers();
    check("compare, 2,000 pairs of volumes, pages that are not listed are the same", many(2000));
}

int main(void) {
    under_each_heading(tests);
    return verdict();
}

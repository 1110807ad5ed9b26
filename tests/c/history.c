#include "history.h"

#include <string.h>

static uint32_t state = 1;

void seed(uint32_t number) { state = number * 2654435761u + 1; }

uint32_t below(uint32_t n) {
    state ^= state << 13;
    state ^= state >> 17;
    state ^= state << 5;
    return state % n;
}

struct counts any_counts(uint32_t records) {
    return (struct counts){1 + below(6), below(8), records + below(6), below(40)};
}

/* ---- the pages in the making ---- */

static uint8_t body[65][244];
static uint32_t last[65], slot_of[65], notes;

/* The record's change, made on a body. */
static void apply(uint8_t *to, const uint8_t *record) {
    uint32_t length = record[11], offset = record[12] | (uint32_t)record[13] << 8;
    if (record[10] == FORMAT) memset(to, record[14], 244);
    if (record[10] == SLIDE) memmove(to + offset + length, to + offset, 244 - offset - length);
    if (record[10] != FORMAT) memcpy(to + offset, record + 16, length);
}

/* Which changes come: those of a number, and from a log record on those of another. */
static struct {
    uint32_t number, from, another;
} chosen;

void changes_of(uint32_t number, uint32_t from, uint32_t another) {
    chosen.number = number;
    chosen.from = from;
    chosen.another = another;
}

/* Log record n: a random page's format, put or slide. */
static uint32_t change(uint8_t *at, struct counts c, uint32_t n) {
    uint32_t before = state;
    seed((chosen.from != 0 && chosen.from <= n ? chosen.another : chosen.number) * 4099 + n);
    below(2);
    uint32_t page = 1 + below(c.pages), kind = last[page] == 0 || below(8) == 0 ? FORMAT : PUT + (int)below(2);
    record(at, n, last[page], page, (int)kind, kind == FORMAT ? (uint8_t)below(256) : 0, "");
    if (kind != FORMAT) {
        uint32_t length = 1 + below(44), offset = below(244 - length + 1);
        at[11] = (uint8_t)length;
        at[12] = (uint8_t)offset;
        for (uint32_t i = 0; i < length; i++) at[16 + i] = (uint8_t)below(256);
    }
    seal(at, 60);
    apply(body[page], at);
    last[page] = n;
    state = before;
    return page;
}

/* The page's image as it stands. */
static void store(uint8_t *at, uint32_t page) {
    image(at, page, last[page], 0);
    memcpy(at + 8, body[page], 244);
    seal_image(at);
}

static void noted(uint8_t *volume, struct counts c, uint32_t page, int kind, uint32_t slot) {
    notes++;
    note(volume + note_at(c, notes), notes, page, kind, (int)slot, last[page]);
}

/* A slot that no page's noted backup is in; 0 is none. */
static uint32_t free_slot(struct counts c) {
    for (uint32_t tries = 0; c.slots != 0 && tries < 8; tries++) {
        uint32_t slot = 1 + below(c.slots), used = 0;
        for (uint32_t p = 1; p <= c.pages; p++) used |= slot_of[p] == slot;
        if (!used) return slot;
    }
    return 0;
}

/* Sometimes the page is written or backed up, and sometimes the note is stored. */
static void keep(uint8_t *volume, struct counts c, uint32_t page) {
    uint32_t slot = free_slot(c);
    if (below(3) == 0) {
        store(volume + page_at(page), page);
        if (notes < c.notes && below(2)) noted(volume, c, page, WRITTEN, 0);
    }
    if (slot != 0 && below(3) == 0) {
        store(volume + slot_at(c, slot), page);
        if (notes < c.notes && below(2)) {
            noted(volume, c, page, BACKED_UP, slot);
            slot_of[page] = slot;
        }
    }
}

/* One byte of the image is another: its sum is wrong. */
static void tear(uint8_t *image) { image[below(252)] ^= (uint8_t)(1 + below(255)); }

void history(uint8_t *volume, struct counts c, uint32_t durable) {
    static uint8_t older[65][256];
    memset(body, 0, sizeof body);
    memset(last, 0, sizeof last);
    memset(slot_of, 0, sizeof slot_of);
    notes = 0;
    make(volume, c);
    if (chosen.number == 0) chosen.number = 1 + below(1u << 30);
    for (uint32_t n = 1; n <= durable; n++) {
        uint32_t page = change(volume + record_at(c, n), c, n);
        if (below(4) == 0) memcpy(older[page], volume + page_at(page), 256);
        keep(volume, c, page);
    }
    for (uint32_t p = 1; p <= c.pages; p++) {
        uint32_t what = last[p] == 0 ? 3 : below(4);
        if (what == 0) tear(volume + page_at(p));
        if (what == 1 && older[p][0] == p) memcpy(volume + page_at(p), older[p], 256);
        if (slot_of[p] != 0 && below(3) == 0) tear(volume + slot_at(c, slot_of[p]));
    }
    memset(older, 0, sizeof older);
    memset(&chosen, 0, sizeof chosen);
    if (durable < c.records && below(2)) memset(volume + record_at(c, durable + 1), 0x2e, 20);
}

/* ---- a ring that has turned ---- */

const struct counts TURNED = {2, 2, 4, 4};

void turned(uint8_t *volume) {
    make(volume, TURNED);
    record(volume + record_at(TURNED, 1), 5, 4, 1, PUT, 0, "five");
    record(volume + record_at(TURNED, 2), 2, 1, 1, PUT, 0, "two");
    record(volume + record_at(TURNED, 3), 3, 2, 1, PUT, 0, "three");
    record(volume + record_at(TURNED, 4), 4, 3, 1, PUT, 0, "four");
    image(volume + slot_at(TURNED, 1), 1, 2, 32);
    note(volume + note_at(TURNED, 1), 1, 1, BACKED_UP, 1, 2);
}

void under_each_heading(void (*tests)(void)) {
    const char *headings[] = {"CHPV", "CHP2"};
    for (int i = 0; i < 2; i++) {
        heading = headings[i];
        tests();
    }
}

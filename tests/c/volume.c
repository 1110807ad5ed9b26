#include "volume.h"

#include <string.h>

static void put(uint8_t *at, uint32_t value, int width) {
    for (int i = 0; i < width; i++) at[i] = (uint8_t)(value >> (8 * i));
}

size_t page_at(uint32_t n) { return 8 + 256 * (size_t)(n - 1); }

size_t slot_at(struct counts c, uint32_t n) { return page_at(c.pages + 1) + 4 + 256 * (size_t)(n - 1); }

size_t record_at(struct counts c, uint32_t n) { return slot_at(c, c.slots + 1) + 4 + 64 * (size_t)(n - 1); }

size_t note_at(struct counts c, uint32_t n) { return record_at(c, c.records + 1) + 4 + 16 * (size_t)(n - 1); }

size_t size_of(struct counts c) { return note_at(c, c.notes + 1); }

void seal(uint8_t *item, size_t n) {
    uint32_t a = 1, b = 0;
    for (size_t i = 0; i + 1 < n; i += 2) {
        a = (a + (item[i] | (uint32_t)item[i + 1] << 8)) % 65535;
        b = (b + a) % 65535;
    }
    put(item + n, b * 65536 + a, 4);
}

const char *heading = "CHP2";

void seal_image(uint8_t *image) {
    if (heading[3] == 'V') {
        seal(image, 252);
        return;
    }
    uint32_t a = 1, b = 0;
    for (size_t i = 0; i < 252; i++) {
        a = (a + image[i]) % 65535;
        b = (b + a) % 65535;
    }
    put(image + 252, b * 65536 + a, 4);
}

void make(uint8_t *volume, struct counts c) {
    memset(volume, 0, size_of(c));
    memcpy(volume, heading, 4);
    put(volume + page_at(1) - 4, c.pages, 4);
    put(volume + slot_at(c, 1) - 4, c.slots, 4);
    put(volume + record_at(c, 1) - 4, c.records, 4);
    put(volume + note_at(c, 1) - 4, c.notes, 4);
}

void image(uint8_t *at, uint32_t page, uint32_t lsn, uint8_t fill) {
    memset(at, 0, 256);
    put(at, page, 2);
    put(at + 4, lsn, 4);
    memset(at + 8, fill, 244);
    seal_image(at);
}

void record(uint8_t *at, uint32_t lsn, uint32_t prev, uint32_t page, int kind, uint8_t fill, const char *bytes) {
    memset(at, 0, 64);
    put(at, lsn, 4);
    put(at + 4, prev, 4);
    put(at + 8, page, 2);
    at[10] = (uint8_t)kind;
    at[11] = (uint8_t)strlen(bytes);
    at[14] = fill;
    memcpy(at + 16, bytes, strlen(bytes));
    seal(at, 60);
}

void note(uint8_t *at, uint32_t number, uint32_t page, int kind, int slot, uint32_t lsn) {
    memset(at, 0, 16);
    put(at, number, 4);
    put(at + 4, page, 2);
    at[6] = (uint8_t)kind;
    at[7] = (uint8_t)slot;
    put(at + 8, lsn, 4);
    seal(at, 12);
}

void chain(uint8_t *volume, struct counts c, uint32_t page) {
    record(volume + record_at(c, 1), 1, 0, page, FORMAT, 0, "");
    for (uint32_t n = 2; n <= c.records; n++) {
        uint8_t *at = volume + record_at(c, n);
        record(at, n, n - 1, page, SLIDE, 0, "");
        at[11] = 1;
        at[16] = (uint8_t)n;
        seal(at, 60);
    }
}

void chain_image(uint8_t *expected, struct counts c, uint32_t page) {
    image(expected, page, c.records, 0);
    for (uint32_t i = 0; i < 244 && i + 1 < c.records; i++) expected[8 + i] = (uint8_t)(c.records - i);
    seal_image(expected);
}

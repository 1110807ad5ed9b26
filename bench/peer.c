#include "scan.h"

uint32_t peer_checksum(const uint8_t *s, size_t n) {
    if (n == 252) { struct two_sums t = words_of(s, 16); return ended(t.a, t.b); }
    if (n == 60) { struct two_sums t = words_of(s, 4); return ended(t.a, t.b); }
    if (n == 12) { struct two_sums t = words_of(s, 1); return ended(t.a, t.b); }
    uint64_t a = 1, b = 0;
    for (size_t i = 0; i + 1 < n; i += 2) {
        a += two(s + i);
        b += a;
    }
    return ended(a, b);
}

uint32_t peer_byte_sum(const uint8_t *s, size_t n) {
    if (n == 252) { struct two_sums t = bytes_of(s); return ended(t.a, t.b); }
    uint64_t a = 1, b = 0;
    for (size_t i = 0; i < n; i++) {
        a += s[i];
        b += a;
    }
    return ended(a, b);
}

/* ---- the repair */

static void apply(uint8_t *body, const uint8_t *r) {
    uint32_t length = r[11], offset = two(r + 12);
    if (r[10] == 1) {
        memset(body, r[14], BODY);
        return;
    }
    if (r[10] == 3) memmove(body + offset + length, body + offset, BODY - offset - length);
    memcpy(body + offset, r + 16, length);
}

static uint32_t class_of(bool valid, uint32_t n, const struct row *e) {
    if (!valid) return 4;
    if (n == e->last) return 1;
    if (n > e->last) return 5;
    return n < e->written ? 3 : 2;
}

uint32_t peer_examine(const uint8_t *volume, size_t volume_len, uint32_t page, uint8_t *buffer, size_t buffer_len,
                      uint32_t *report, size_t report_len) {
    struct volume v;
    if (!opened(&v, volume, volume_len)) return 1;
    if (report_len != 3 || buffer_len != IMAGE) return 2;
    if (page < 1 || page > v.pages) return 3;
    struct row rows[65];
    struct run log, notes;
    uint32_t no = scanned(&v, rows, &log, &notes);
    if (no) return no;
    const struct row *e = rows + page;
    if (e->last == 0) return 7;

    const uint8_t *own = v.at + 8 + IMAGE * (size_t)(page - 1);
    const uint8_t *copy = e->slot ? v.slot + IMAGE * (size_t)(e->slot - 1) : own;
    bool valid = valid_image(&v, page, own);
    bool noted = e->slot && four(copy + 4) == e->backup && valid_image(&v, page, copy);
    const uint8_t *chain[1024];
    uint32_t count = 0, n = e->last, start = 3;
    for (;;) {
        if (valid && four(own + 4) == n) { start = 1; break; }
        if (noted && e->backup == n) { start = 2; break; }
        if (n < log.first) return 23;
        const uint8_t *r = record_of(&v, n);
        chain[count++] = r;
        if (r[10] == 1) break;
        n = four(r + 4);
    }
    if (start != 3) memcpy(buffer + 8, (start == 1 ? own : copy) + 8, BODY);
    for (uint32_t i = count; i-- > 0;) apply(buffer + 8, chain[i]);
    uint32_t head[2] = {page, e->last};
    memcpy(buffer, head, 8);
    uint32_t sum = v.tag == 'V' ? peer_checksum(buffer, 252) : peer_byte_sum(buffer, 252);
    memcpy(buffer + 252, &sum, 4);
    report[0] = class_of(valid, four(own + 4), e);
    report[1] = start;
    report[2] = count;
    return 0;
}

/* ---- for the store */

bool peer_open(struct volume *v, const uint8_t *volume, size_t volume_len) { return opened(v, volume, volume_len); }

bool peer_sealed(const uint8_t *item, size_t n) { return n == 60 ? sealed_record(item) : sealed_note(item); }

bool peer_layout(const uint8_t *record) { return layout(record); }

bool peer_valid_image(const struct volume *v, uint32_t page, const uint8_t *x) { return valid_image(v, page, x); }

void peer_apply(uint8_t *body, const uint8_t *record) { apply(body, record); }

uint32_t peer_scan(const struct volume *v, struct row *rows, struct run *log, struct run *notes) {
    return scanned(v, rows, log, notes);
}

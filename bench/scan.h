/* A volume opened, and the one pass over its log and its notes; two passes where a ring is not as it was guessed. */
#ifndef SCAN_H
#define SCAN_H

#include "items.h"

/* ---- the volume */

static inline bool opened(struct volume *v, const uint8_t *s, size_t len) {
    if (len < 20 || (four(s) & 0xffffff) != 0x504843 || (s[3] != 'V' && s[3] != '2' && s[3] != 'C')) return false;
    v->at = s;
    v->tag = s[3];
    size_t at = 4;
    v->pages = four(s + at);
    if (v->pages < 1 || v->pages > 64 || (at += 4 + IMAGE * (size_t)v->pages) + 4 > len) return false;
    v->slots = four(s + at);
    v->slot = s + at + 4;
    if (v->slots > 128 || (at += 4 + IMAGE * (size_t)v->slots) + 4 > len) return false;
    v->records = four(s + at);
    v->log = s + at + 4;
    if (v->records < 1 || v->records > 1024 || (at += 4 + RECORD * (size_t)v->records) + 4 > len) return false;
    v->notes = four(s + at);
    v->note = s + at + 4;
    v->ring = v->tag == '2' && v->records >= 2;
    return v->notes <= 1024 && at + 4 + NOTE * (size_t)v->notes == len;
}

static inline const uint8_t *record_of(const struct volume *v, uint32_t n) {
    return v->log + RECORD * (size_t)(n - 1 < v->records ? n - 1 : (n - 1) % v->records);
}

/* ---- the scans */

/* What is asked of record n, whole, at slot r. */
ALWAYS bool record_fits(const struct volume *v, const uint8_t *r, uint32_t n, uint64_t below, struct row *rows) {
    uint32_t page = two(r + 8), prev = four(r + 4);
    if (four(r) != n || page - 1 >= v->pages || !layout(r)) return false;
    struct row *e = rows + page;
    if (prev != e->last && !(e->last == 0 && prev >= 1 && prev <= below)) return false;
    if (r[10] != 1 && prev == 0) return false;
    e->last = n;
    return true;
}

/* The whole slots of a ring: each one's flag, and the highest number. */
ALWAYS uint32_t highest(const uint8_t *at, size_t size, uint32_t count, bool *whole) {
    uint32_t n = 0;
    for (uint32_t i = 0; i < count; i++) {
        const uint8_t *x = at + size * i;
        bool w = sealed(x, size - 4);
        uint32_t k = w ? four(x) : 0;
        whole[i] = w;
        n = k > n ? k : n;
    }
    return n;
}

/* The run of a ring, and whether what follows it is as it must be. */
ALWAYS bool ring_run(struct run *r, const uint8_t *at, size_t size, uint32_t count, bool *whole) {
    uint32_t n = highest(at, size, count, whole), below = n > count ? n - count : 0;
    uint32_t slot = below < count ? below : count ? below % count : 0;
    r->last = n;
    r->first = (uint64_t)below + (count && whole[slot] ? 1 : 2);
    if (count <= n) return true;
    return !whole[n] && (n == 0 || r->first == 1) && zeros(at + size * (n + 1), size * (count - n - 1));
}

/* Where the run of a ring that holds a number in each slot would start: the slot, and its number. Right only if each
 * slot from there on turns out to hold the next number. */
ALWAYS uint32_t seam(const uint8_t *at, size_t size, uint32_t count, uint32_t *first) {
    *first = 1;
    if (count == 0) return 0;
    uint32_t top = four(at), low = 0, high = count;
    if (top <= count || (top - 1) % count != 0) return 0;
    while (low + 1 < high) {
        uint32_t middle = low + (high - low) / 2;
        if (four(at + size * middle) >= top) low = middle;
        else high = middle;
    }
    *first = high == count ? top : top - count + high;
    return high == count ? 0 : high;
}

static __attribute__((noinline)) bool scan_log_slowly(const struct volume *v, struct run *run, struct row *rows) {
    bool whole[1024];
    memset(rows, 0, sizeof rows[0] * (v->pages + 1));
    if (!ring_run(run, v->log, RECORD, v->records, whole)) return false;
    uint64_t below = run->first - 1;
    uint32_t i = (uint32_t)(below < v->records ? below : below % v->records);
    for (uint64_t n = run->first; n <= run->last; n++) {
        if (!whole[i] || !record_fits(v, v->log + RECORD * (size_t)i, (uint32_t)n, below, rows)) return false;
        if (++i == v->records) i = 0;
    }
    return true;
}

static inline bool scan_log(const struct volume *v, struct run *run, struct row *rows) {
    if (!v->ring) {
        uint32_t n = 0;
        const uint8_t *r = v->log;
        for (; n < v->records && sealed_record(r); n++, r += RECORD)
            if (!record_fits(v, r, n + 1, 0, rows)) return false;
        *run = (struct run){1, n};
        return n == v->records || zeros(r + RECORD, RECORD * (size_t)(v->records - n - 1));
    }
    uint32_t first, slot = seam(v->log, RECORD, v->records, &first), i = 0;
    const uint8_t *r = v->log + RECORD * (size_t)slot, *end = v->log + RECORD * (size_t)v->records;
    for (; i < v->records && sealed_record(r); i++) {
        if (!record_fits(v, r, first + i, first - 1, rows)) return scan_log_slowly(v, run, rows);
        r += RECORD;
        if (r == end) r = v->log;
    }
    *run = (struct run){i == 0 ? 2 : first, first - 1 + i};
    if (i == v->records) return true;
    if (first == 1 && zeros(v->log + RECORD * (size_t)(i + 1), RECORD * (size_t)(v->records - i - 1))) return true;
    return scan_log_slowly(v, run, rows);
}

/* What is asked of note n, whole, at slot x. `turn`: a number less this is a slot, or `slots` more than one. */
ALWAYS bool note_fits(const struct volume *v, const uint8_t *x, uint32_t n, struct run log, uint64_t turn,
                      struct row *rows, uint8_t *used) {
    uint32_t page = two(x + 4), kind = x[6], slot = x[7], lsn = four(x + 8);
    if (four(x) != n || page - 1 >= v->pages || lsn - 1 >= log.last) return false;
    if (lsn >= log.first) {
        uint64_t i = lsn - 1 - turn;
        i = i < v->records ? i : i - v->records;
        if (two(v->log + RECORD * (size_t)i + 8) != page) return false;
    }
    struct row *e = rows + page;
    if (kind == 1) {
        if (slot || lsn < e->written) return false;
        e->written = lsn;
    } else {
        if (kind != 2 || lsn < e->backup || slot - 1 >= v->slots || used[slot]) return false;
        used[e->slot] = 0;
        used[slot] = 1;
        e->slot = (uint8_t)slot;
        e->backup = lsn;
    }
    return true;
}

static inline bool notes_ordered(const struct volume *v, struct row *rows) {
    for (uint32_t p = 1; p <= v->pages; p++) {
        if (rows[p].last == 0) rows[p].last = rows[p].backup;
        if (rows[p].written > rows[p].last) return false;
    }
    return true;
}

static __attribute__((noinline)) bool scan_notes_slowly(const struct volume *v, struct run log, struct run *run,
                                                         struct row *rows, uint64_t turn) {
    uint8_t used[129];
    bool whole[1024];
    memset(used, 0, v->slots + 1);
    for (uint32_t p = 1; p <= v->pages; p++) rows[p] = (struct row){rows[p].last, 0, 0, 0};
    if (!ring_run(run, v->note, NOTE, v->notes, whole)) return false;
    uint64_t under = run->first - 1;
    uint32_t i = v->notes == 0 ? 0 : (uint32_t)(under < v->notes ? under : under % v->notes);
    for (uint64_t n = run->first; n <= run->last; n++) {
        if (!whole[i] || !note_fits(v, v->note + NOTE * (size_t)i, (uint32_t)n, log, turn, rows, used)) return false;
        if (++i == v->notes) i = 0;
    }
    return notes_ordered(v, rows);
}

static inline bool scan_notes(const struct volume *v, struct run log, struct run *run, struct row *rows) {
    uint8_t used[129];
    memset(used, 0, v->slots + 1);
    uint64_t below = log.first - 1, turn = below < v->records ? 0 : below - below % v->records;
    if (!v->ring) {
        uint32_t n = 0;
        const uint8_t *x = v->note;
        for (; n < v->notes && sealed_note(x); n++, x += NOTE)
            if (!note_fits(v, x, n + 1, log, turn, rows, used)) return false;
        *run = (struct run){1, n};
        if (n < v->notes && !zeros(x + NOTE, NOTE * (size_t)(v->notes - n - 1))) return false;
        return notes_ordered(v, rows);
    }
    uint32_t first, slot = seam(v->note, NOTE, v->notes, &first), i = 0;
    const uint8_t *x = v->note + NOTE * (size_t)slot, *end = v->note + NOTE * (size_t)v->notes;
    for (; i < v->notes && sealed_note(x); i++) {
        if (!note_fits(v, x, first + i, log, turn, rows, used)) return scan_notes_slowly(v, log, run, rows, turn);
        x += NOTE;
        if (x == end) x = v->note;
    }
    *run = (struct run){i == 0 ? 2 : first, first - 1 + i};
    if (i == v->notes || (first == 1 && zeros(v->note + NOTE * (size_t)(i + 1), NOTE * (size_t)(v->notes - i - 1))))
        return notes_ordered(v, rows);
    return scan_notes_slowly(v, log, run, rows, turn);
}

/* Both scans: the refusal, or 0 with the rows of pages 1 to P and the two runs. */
static inline uint32_t scanned(const struct volume *v, struct row *rows, struct run *log, struct run *notes) {
    memset(rows, 0, sizeof rows[0] * (v->pages + 1));
    if (!scan_log(v, log, rows)) return 17;
    return scan_notes(v, *log, notes, rows) ? 0 : 18;
}

#endif

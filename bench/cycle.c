/* Times a cycle of calls: the proved store, by itself and by the calls for C, against the peer, in turns, on the same
 * made volume; before that, all are played on volumes of several kinds, and must leave the same bytes. */
#include "../include/pagestore.h"
#include "bench.h"
#include "by_value.h"
#include "../tests/c/volume.h"

#include <stdio.h>
#include <stdlib.h>

uint32_t pagestore_cycles(uint8_t *volume, size_t volume_len, uint8_t *memory, size_t memory_len, uint32_t count);

enum { MEMORY = 1024 + 2 * IMAGE, MOST = 131092, CYCLES = 64 };

typedef uint32_t cycles(uint8_t *, size_t, uint8_t *, size_t, uint32_t);

static uint8_t ours[MOST], theirs[MOST], memory_ours[1024 + 17 * IMAGE], memory_theirs[1024 + 17 * IMAGE];

/* The cycles of crates/bench_calls: page n + 1 is begun in frame 1, changed, forced twice, written and noted, and page
 * n is loaded into frame 2. The number of refusals. */
static uint32_t by_value_cycles(uint8_t *volume, size_t volume_len, uint8_t *memory, size_t memory_len,
                                uint32_t count) {
    struct bytes b = {volume, volume_len, memory, memory_len};
    uint8_t payload[44];
    memset(payload, 9, sizeof payload);
    struct reply r = by_value_restart(b);
    uint32_t refused = r.answer.kind == REFUSED;
    for (uint32_t n = 0; n < count; n++) {
        r = by_value_begin(r.state, b, n + 1, 1, 7);
        refused += r.answer.kind == REFUSED;
        r = by_value_put(r.state, b, n + 1, 100, 44, payload);
        refused += r.answer.kind == REFUSED;
        r = by_value_force(r.state, b);
        refused += r.answer.kind == REFUSED;
        r = by_value_force(r.state, b);
        refused += r.answer.kind == REFUSED;
        r = by_value_write(r.state, b, n + 1);
        refused += r.answer.kind == REFUSED;
        r = by_value_note(r.state, b);
        refused += r.answer.kind == REFUSED;
        r = by_value_load(r.state, b, n, 2);
        refused += r.answer.kind == REFUSED;
    }
    return refused;
}

/* The same with the state in place, which is left in *s. */
static uint32_t played(struct state *s, struct bytes b, uint32_t count) {
    uint8_t payload[44];
    memset(payload, 9, sizeof payload);
    uint32_t refused = peer_restart(s, b).kind == REFUSED;
    for (uint32_t n = 0; n < count; n++) {
        refused += peer_begin(s, b, n + 1, 1, 7).kind == REFUSED;
        refused += peer_put(s, b, n + 1, 100, 44, payload).kind == REFUSED;
        refused += peer_force(s, b).kind == REFUSED;
        refused += peer_force(s, b).kind == REFUSED;
        refused += peer_write(s, b, n + 1).kind == REFUSED;
        refused += peer_note(s, b).kind == REFUSED;
        refused += peer_load(s, b, n, 2).kind == REFUSED;
    }
    return refused;
}

static uint32_t in_place_cycles(uint8_t *volume, size_t volume_len, uint8_t *memory, size_t memory_len,
                                uint32_t count) {
    struct state s;
    return played(&s, (struct bytes){volume, volume_len, memory, memory_len}, count);
}

/* The same cycles by the calls for C: the state's numbers go in and out of each. */
static uint32_t c_cycles(uint8_t *volume, size_t volume_len, uint8_t *memory, size_t memory_len, uint32_t count) {
#define LENT volume, volume_len, memory, memory_len, state, PAGESTORE_STATE_SIZE
#define REPORT report, PAGESTORE_CALL_REPORT_SIZE
    uint32_t state[PAGESTORE_STATE_SIZE], report[PAGESTORE_CALL_REPORT_SIZE];
    uint8_t payload[44];
    memset(payload, 9, sizeof payload);
    uint32_t refused = pagestore_restart(LENT) != PAGESTORE_OK;
    for (uint32_t n = 0; n < count; n++) {
        const uint32_t answers[] = {
            pagestore_begin(LENT, n + 1, 1, 7, REPORT),
            pagestore_change(LENT, n + 1, PAGESTORE_PUT, 100, 44, 0, payload, sizeof payload, REPORT),
            pagestore_force(LENT, REPORT), pagestore_force(LENT, REPORT), pagestore_write(LENT, n + 1, REPORT),
            pagestore_note(LENT, REPORT), pagestore_load(LENT, n, 2, REPORT),
        };
        for (size_t i = 0; i < sizeof answers / sizeof answers[0]; i++)
            refused += answers[i] != PAGESTORE_OK && answers[i] != PAGESTORE_NOTHING;
    }
    return refused;
}

/* All from the volume in `ours`: the same refusals, volume and memory. */
static void same(const char *name, size_t size, size_t memory, uint32_t count) {
    static const struct {
        cycles *made;
        const char *name;
    } others[] = {{c_cycles, "for C"}, {by_value_cycles, "peer by value"}, {in_place_cycles, "peer in place"}};
    static uint8_t before[MOST];
    memcpy(before, ours, size);
    memset(memory_ours, 5, sizeof memory_ours);
    uint32_t a = pagestore_cycles(ours, size, memory_ours, memory, count);
    for (int i = 0; i < 3; i++) {
        memcpy(theirs, before, size);
        memset(memory_theirs, 5, sizeof memory_theirs);
        uint32_t b = others[i].made(theirs, size, memory_theirs, memory, count);
        if (a == b && !memcmp(ours, theirs, size) && !memcmp(memory_ours, memory_theirs, sizeof memory_ours)) continue;
        printf("cycles, %s: proved %u refusals, %s %u: they differ\n", name, a, others[i].name, b);
        exit(1);
    }
}

/* Breaks clause k of a well-formed state, with page 3 in frame 1 and page 2 in frame 2; false past the last clause. */
static bool broken(struct state *s, int k) {
    switch (k) {
    case 0: s->pending = 17; return true;
    case 1: s->durable = 200; return true;
    case 2: s->notes = 65; return true;
    case 3: s->note = (struct pending_note){true, s->notes + 2, 3, 1, 0, 1}; return true;
    case 4: s->note = (struct pending_note){true, s->notes + 1, 3, 1, 1, 1}; return true;
    case 5: s->note = (struct pending_note){true, s->notes + 1, 3, 2, 1, 1}; return true;
    case 6: s->note = (struct pending_note){true, s->notes + 1, 61, 1, 0, 1}; return true;
    case 7: s->note = (struct pending_note){true, s->notes + 1, 3, 1, 0, s->durable + 1}; return true;
    case 8: s->frames[0].page = 61; return true;
    case 9: s->frames[0].page = 2; return true;
    case 10: s->frames[0].page = 4; return true;
    case 11: s->frames[5].dirty = true; return true;
    case 12: s->frames[2].page = 1; return true;
    case 13: s->index[2].last = s->durable + 1; return true;
    case 14: s->index[2].last = s->index[2].durable - 1; return true;
    case 15: s->index[2].last = s->index[2].durable = s->durable + 1; return true;
    case 16: s->index[2].written = s->index[2].durable + 1; return true;
    case 17: s->index[2].backup = s->index[2].durable + 1; return true;
    case 18: s->index[2].slot = 1; return true;
    case 19: s->index[0].durable--; return true;
    case 20: s->index[60].written = 1; return true;
    default: return false;
    }
}

/* The cycles meet well-formed states only, so that the peer's test is tried by itself, clause by clause. */
static void clauses_tried(void) {
    struct counts c = {60, 0, 128, 64};
    struct volume v;
    heading = "CHPV";
    make(ours, c);
    struct state s;
    played(&s, (struct bytes){ours, size_of(c), memory_ours, MEMORY}, 3);
    bool right = peer_open(&v, ours, size_of(c)) && peer_well_formed(&v, &s, 2);
    struct state t = s;
    for (int k = 0; broken(&t, k); k++, t = s) {
        if (right && !peer_well_formed(&v, &t, 2)) continue;
        printf("cycles: the peer's test of a state misses clause %d\n", k);
        exit(1);
    }
}

void cycles_compared(void) {
    clauses_tried();
    static const struct counts kinds[] = {
        {CYCLES, 0, 2 * CYCLES, CYCLES}, {5, 0, 4, 3}, {5, 2, 1, 0}, {64, 0, 40, 70}, {1, 1, 2, 1}, {64, 0, 1024, 10}};
    static const char *headings[] = {"CHPV", "CHP2"};
    uint32_t seed = 1;
    for (size_t k = 0; k < sizeof kinds / sizeof kinds[0]; k++) {
        for (int h = 0; h < 2; h++) {
            size_t size = size_of(kinds[k]);
            heading = headings[h];
            make(ours, kinds[k]);
            same("made volumes", size, MEMORY, CYCLES);
            same("what the cycles left", size, MEMORY, CYCLES);
            same("one frame", size, 1024 + IMAGE, 3);
            same("17 frames", size, 1024 + 17 * IMAGE, 3);
            for (int i = 0; i < 60; i++) {
                make(ours, kinds[k]);
                same("a made volume", size, MEMORY, 1 + i % 3);
                seed = seed * 1664525 + 1013904223;
                ours[seed % size] ^= (uint8_t)(1 + (seed >> 16) % 255);
                same("a byte changed", size, MEMORY, 4);
            }
        }
    }
    heading = "CHP2";
}

static double round_of(cycles *f, const uint8_t *made, size_t size) {
    memcpy(ours, made, size);
    memset(memory_ours, 0, MEMORY);
    double before = now();
    uint32_t refused = f(ours, size, memory_ours, MEMORY, CYCLES);
    double spent = now() - before;
    if (refused != 1) exit(1); /* only the first cycle's Load has no page */
    return spent / CYCLES;
}

void cycles_timed(void) {
    static uint8_t made[MOST];
    struct counts c = {CYCLES, 0, 2 * CYCLES, CYCLES};
    cycles *const sides[] = {pagestore_cycles, by_value_cycles, c_cycles, in_place_cycles};
    double best[] = {1e18, 1e18, 1e18, 1e18};
    make(made, c);
    for (int i = 0; i < 3000; i++)
        for (int k = 0; k < 4; k++) {
            double spent = round_of(sides[k], made, size_of(c));
            if (spent < best[k]) best[k] = spent;
        }
    row("cycle of seven calls, C by value", best[0], best[1]);
    row("the same, C in place", best[0], best[3]);
    row("by the calls for C, C in place", best[2], best[3]);
    printf("| the calls for C beside those of Rattle | %.0f | %.0f | %.2f |\n", best[2], best[0], best[2] / best[0]);
}

/* Inspection: the proved function against the peer; both must give the same on every volume before they are timed. */
#include "../include/pagestore.h"
#include "bench.h"
#include "peer.h"
#include "volumes.h"

#include <stdio.h>
#include <stdlib.h>

typedef uint32_t examine(const uint8_t *, size_t, uint32_t, uint8_t *, size_t, uint32_t *, size_t);

static uint8_t volume[PAGESTORE_VOLUME_MAX];

/* Both on one page: the same answer, buffer and report; stops at the first difference. */
static void same(const char *name, size_t size, uint32_t page) {
    uint8_t ours[256] = {1, 2, 3}, theirs[256] = {1, 2, 3};
    uint32_t r[3] = {9, 9, 9}, t[3] = {9, 9, 9};
    uint32_t a = pagestore_examine(volume, size, page, ours, 256, r, 3);
    uint32_t b = peer_examine(volume, size, page, theirs, 256, t, 3);
    if (a == b && !memcmp(ours, theirs, 256) && !memcmp(r, t, sizeof r)) return;
    printf("%s, page %u: proved %u, peer %u: they differ\n", name, page, a, b);
    exit(1);
}

/* The volume as it is, and with a byte changed anywhere, so that every refusal is met. */
static void compared(const struct filling *f) {
    size_t size = size_of(f->counts);
    for (uint32_t page = 0; page <= f->counts.pages + 1; page++) same(f->name, size, page);
    uint32_t seed = 1;
    for (int i = 0; i < 400; i++) {
        seed = seed * 1664525 + 1013904223;
        size_t at = seed % size;
        uint8_t old = volume[at];
        volume[at] ^= (uint8_t)(1 + (seed >> 16) % 255);
        same(f->name, size, seed >> 8 & 1 ? 1 : f->counts.pages);
        volume[at] = old;
    }
}

static double round_of(examine *f, const struct filling *v, uint32_t turns) {
    uint8_t buffer[256] = {0};
    uint32_t report[3] = {0}, sum = 0;
    double before = now();
    for (uint32_t i = 0; i < turns; i++)
        sum += f(volume, size_of(v->counts), i % v->counts.pages + 1, buffer, 256, report, 3) + report[2];
    double spent = now() - before;
    static volatile uint32_t kept;
    kept = sum;
    (void)kept;
    return spent / turns;
}

/* The best of many short rounds of each side, in turns. */
static void timed(const struct filling *f, double *ours, double *theirs) {
    uint32_t turns = f->counts.records > 64 ? 16 : 256;
    *ours = *theirs = 1e18;
    for (int i = 0; i < 600; i++) {
        double a = round_of(pagestore_examine, f, turns), b = round_of(peer_examine, f, turns);
        if (a < *ours) *ours = a;
        if (b < *theirs) *theirs = b;
    }
}

#define BIG(l) {64, 128, l, 1024}
#define SMALL {2, 1, 4, 4}

static const struct filling fillings[] = {
    {"L 1,024", BIG(1024), "CHPV", 1024, 1024, 0, 44, false, NONE},
    {"L 256", BIG(256), "CHPV", 256, 1024, 0, 44, false, NONE},
    {"L 64", BIG(64), "CHPV", 64, 1024, 0, 44, false, NONE},
    {"P 2, B 1, L 4, N 4", SMALL, "CHPV", 4, 4, 0, 44, false, NONE},
    {"half of the notes backups", BIG(1024), "CHPV", 1024, 1024, 2, 44, false, NONE},
    {"payloads of 5 bytes", BIG(1024), "CHPV", 1024, 1024, 0, 5, false, NONE},
    {"own image good", BIG(1024), "CHPV", 1024, 1024, 0, 44, true, NONE},
    {"a log one tenth full", BIG(1024), "CHPV", 102, 102, 0, 44, false, NONE},
    {"second heading, L 1,024", BIG(1024), "CHP2", 1024, 1024, 0, 44, false, NONE},
    {"second heading, L 256", BIG(256), "CHP2", 256, 1024, 0, 44, false, NONE},
    {"second heading, L 64", BIG(64), "CHP2", 64, 1024, 0, 44, false, NONE},
    {"second heading, P 2, L 4", SMALL, "CHP2", 4, 4, 0, 44, false, NONE},
    {"turned, own image good", BIG(1024), "CHP2", 2500, 2500, 0, 44, true, NONE},
    {"turned, half backups", BIG(1024), "CHP2", 2500, 2500, 2, 44, true, NONE},
    {"turned, P 2, L 4", SMALL, "CHP2", 11, 11, 0, 44, true, NONE},
    {"turned, seam torn", BIG(1024), "CHP2", 2500, 2500, 0, 44, true, FRONT},
    {"turned, seam torn, old number", BIG(1024), "CHP2", 2500, 2500, 0, 44, true, BACK},
    {"turned, seam torn, P 2, L 4", SMALL, "CHP2", 11, 11, 0, 44, true, BACK},
};

enum { COUNT = sizeof fillings / sizeof fillings[0] };

/* Small rings of every length up to 5 at every moment of their first turns, the next items torn. */
static void torn_compared(void) {
    for (uint32_t slots = 2; slots <= 5; slots++)
        for (uint32_t n = 1; n <= 4 * slots; n++)
            for (enum cut cut = FRONT; cut <= BACK; cut++) {
                struct counts c = {2, 1, slots, slots - 1};
                const struct filling f = {"a small ring, torn", c, "CHP2", n, n, 0, 44, true, cut};
                filled(volume, &f);
                compared(&f);
            }
}

void inspection_compared(void) {
    torn_compared();
    for (size_t i = 0; i < COUNT; i++) {
        filled(volume, fillings + i);
        compared(fillings + i);
    }
}

/* The growth between two rows whose logs are full, in ns for each further record. */
static void growth(const double (*ns)[2], size_t from, size_t to) {
    const struct filling *a = fillings + from, *b = fillings + to;
    double records = (double)b->counts.records - (double)a->counts.records;
    double ours = (ns[to][0] - ns[from][0]) / records, theirs = (ns[to][1] - ns[from][1]) / records;
    printf("| a further record, %s to %s | %.1f | %.1f | %.2f |\n", a->name, b->name, ours, theirs, ours / theirs);
}

void inspection_timed(void) {
    static double ns[COUNT][2];
    for (size_t i = 0; i < COUNT; i++) {
        filled(volume, fillings + i);
        timed(fillings + i, &ns[i][0], &ns[i][1]);
        row(fillings[i].name, ns[i][0], ns[i][1]);
    }
    growth(ns, 2, 1);
    growth(ns, 1, 0);
    growth(ns, 10, 9);
    growth(ns, 9, 8);
}

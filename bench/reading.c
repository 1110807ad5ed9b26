/* The reports on a volume: the proved functions against the peers. */
#include "../include/pagestore.h"
#include "bench.h"
#include "readers.h"
#include "volumes.h"

#include <stdio.h>
#include <stdlib.h>

#define BIG(l) {64, 128, l, 1024}

static const struct filling fillings[] = {
    {"L 1,024", BIG(1024), "CHP2", 1024, 1024, 2, 44, false, NONE},
    {"L 256", BIG(256), "CHP2", 256, 1024, 2, 44, false, NONE},
    {"L 64", BIG(64), "CHP2", 64, 1024, 2, 44, false, NONE},
    {"turned", BIG(1024), "CHP2", 2500, 2500, 2, 44, true, NONE},
    {"turned, seam torn", BIG(1024), "CHP2", 2500, 2500, 2, 44, true, FRONT},
    {"first heading", BIG(256), "CHPV", 200, 200, 2, 44, false, NONE},
    {"P 2, L 4", {2, 1, 4, 4}, "CHP2", 3, 3, 0, 44, false, NONE},
};

enum { COUNT = sizeof fillings / sizeof fillings[0], TIMED = 3, ARCHIVE = 65792 };

static uint8_t volume[PAGESTORE_VOLUME_MAX], other[PAGESTORE_VOLUME_MAX];
static size_t size, archive_size;

/* A report: what it reads is in `volume`, and in `other` where it takes two; what it writes goes to `out`. */
typedef uint32_t report(void *out);

struct reader {
    const char *name;
    report *ours, *theirs;
    size_t written;
};

static uint32_t forecast_ours(void *out) { return pagestore_forecast(volume, size, out, 128); }
static uint32_t forecast_theirs(void *out) { return peer_forecast(volume, size, out, 128); }
static uint32_t archive_ours(void *out) { return pagestore_archive_write(volume, size, out, archive_size); }
static uint32_t archive_theirs(void *out) { return peer_archive_write(volume, size, out, archive_size); }
static uint32_t compare_ours(void *out) { return pagestore_compare(volume, size, other, size, out, 66); }
static uint32_t compare_theirs(void *out) { return peer_compare(volume, size, other, size, out, 66); }

static const struct reader readers[] = {
    {"forecast", forecast_ours, forecast_theirs, 128 * sizeof(uint32_t)},
    {"archive", archive_ours, archive_theirs, ARCHIVE},
    {"compare", compare_ours, compare_theirs, 66 * sizeof(uint32_t)},
    {NULL, NULL, NULL, 0},
};

static uint32_t ours[ARCHIVE / 4], theirs[ARCHIVE / 4];

static void same(const struct reader *r, const char *name) {
    memset(ours, 7, sizeof ours);
    memset(theirs, 7, sizeof theirs);
    uint32_t a = r->ours(ours), b = r->theirs(theirs);
    if (a == b && !memcmp(ours, theirs, sizeof ours)) return;
    printf("%s, %s: proved %u, peer %u: they differ\n", r->name, name, a, b);
    exit(1);
}

static void prepared(const struct filling *f) {
    filled(volume, f);
    size = size_of(f->counts);
    archive_size = 4 * (size_t)f->counts.pages + 64 * (size_t)f->appended;
    memcpy(other, volume, size);
}

/* The volume as it is; with a byte changed anywhere; and against a log with another payload, and without its notes and
 * its last record. */
static void compared(const struct reader *r, const struct filling *f) {
    uint32_t seed = 1, records = f->counts.records;
    prepared(f);
    same(r, f->name);
    for (int k = 0; k < 300; k++) {
        seed = seed * 1664525 + 1013904223;
        uint8_t *at = (seed >> 8 & 1 ? volume : other) + seed % size, old = *at;
        *at ^= (uint8_t)(1 + (seed >> 16) % 255);
        same(r, f->name);
        *at = old;
    }
    uint8_t *changed = other + record_at(f->counts, f->appended / 2 % records + 1);
    changed[16] ^= 1;
    seal(changed, 60);
    same(r, "another payload");
    memcpy(other, volume, size);
    memset(other + note_at(f->counts, 1), 0, 16 * (size_t)f->counts.notes);
    memset(other + record_at(f->counts, (f->appended - 1) % records + 1), 0, 64);
    same(r, "one record fewer");
}

void readers_compared(void) {
    for (const struct reader *r = readers; r->name; r++)
        for (size_t i = 0; i < COUNT; i++) compared(r, fillings + i);
}

static double round_of(report *f) {
    double before = now();
    for (int i = 0; i < 8; i++) f(ours);
    return (now() - before) / 8;
}

void readers_timed(void) {
    for (const struct reader *r = readers; r->name; r++) {
        for (size_t i = 0; i < TIMED; i++) {
            double a = 1e18, b = 1e18;
            char name[64];
            prepared(fillings + i);
            for (int k = 0; k < 400; k++) {
                double x = round_of(r->ours), y = round_of(r->theirs);
                if (x < a) a = x;
                if (y < b) b = y;
            }
            snprintf(name, sizeof name, "%s, %s", r->name, fillings[i].name);
            row(name, a, b);
        }
    }
}

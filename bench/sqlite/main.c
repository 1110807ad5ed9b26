/* bench-sqlite DIRECTORY...: durable changes by ours and by SQLite, in turns; then the same damage done to both. */
#define _GNU_SOURCE
#include "sides.h"

#include <fcntl.h>
#include <stdio.h>
#include <stdlib.h>
#include <string.h>
#include <sys/stat.h>
#include <time.h>
#include <unistd.h>

enum { SIDES = 3, TURNS = 21, CHANGES = 200, FILE_MAX = 1 << 21 };
static const struct side *sides[SIDES] = {&ours, &sqlite_blob, &sqlite_row};

static double seconds(void) {
    struct timespec t;
    clock_gettime(CLOCK_MONOTONIC, &t);
    return (double)t.tv_sec + (double)t.tv_nsec / 1e9;
}

static const char *piece_of(unsigned long n) {
    static char piece[PIECE + 1];
    snprintf(piece, sizeof piece, "%044lu", n);
    return piece;
}

/* ---- the same work, in turns */

static int by_size(const void *a, const void *b) {
    double x = *(const double *)a, y = *(const double *)b;
    return (x > y) - (x < y);
}

/* One turn of a side: its changes, then each page's text held against the last of them. Gives changes a second. */
static double turn(const struct side *side, const char *directory, int number, struct counted *sum) {
    char found[PIECE];
    unsigned long first = 1000000 + (unsigned long)number * CHANGES;
    must(side->open(directory, number == 0) == 0, "open");
    memset(&counted, 0, sizeof counted);
    double start = seconds();
    for (unsigned long n = first; n < first + CHANGES; n++) side->change(1 + (uint32_t)(n % PAGES), piece_of(n));
    double took = seconds() - start;
    sum->bytes += counted.bytes, sum->writes += counted.writes, sum->syncs += counted.syncs;
    for (unsigned long n = first + CHANGES - PAGES; n < first + CHANGES; n++) {
        must(side->text(1 + (uint32_t)(n % PAGES), found) == 0, "reading back");
        must(memcmp(found, piece_of(n), PIECE) == 0, "another text came back");
    }
    side->close();
    return CHANGES / took;
}

static void race(const char *directory) {
    double rates[SIDES][TURNS];
    struct counted sum[SIDES];
    memset(sum, 0, sizeof sum);
    for (int t = 0; t < TURNS; t++)
        for (int s = 0; s < SIDES; s++) {
            /* the two kinds of SQLite each have a file of their own */
            char own[250];
            snprintf(own, sizeof own, "%s/%d", directory, s);
            rates[s][t] = turn(sides[s], own, t, &sum[s]);
        }
    for (int s = 0; s < SIDES; s++) {
        double all = TURNS * CHANGES;
        qsort(rates[s], TURNS, sizeof(double), by_size);
        printf("| %s | %.0f | %.0f | %.0f | %.2f | %.2f |\n", sides[s]->name, rates[s][TURNS / 2], rates[s][TURNS - 1],
               (double)sum[s].bytes / all, (double)sum[s].writes / all, (double)sum[s].syncs / all);
    }
}

/* ---- the same damage */

static uint8_t contents[FILE_MAX];

static size_t load_file(const char *directory, const char *name) {
    char path[300];
    snprintf(path, sizeof path, "%s/%s", directory, name);
    int fd = open(path, O_RDONLY);
    ssize_t n = fd < 0 ? -1 : read(fd, contents, FILE_MAX);
    must(n >= 0 && close(fd) == 0, path);
    return (size_t)n;
}

static void put_bytes(const char *directory, const char *name, size_t offset, const void *bytes, size_t count) {
    char path[300];
    snprintf(path, sizeof path, "%s/%s", directory, name);
    int fd = open(path, O_WRONLY);
    must(fd >= 0 && pwrite(fd, bytes, count, (off_t)offset) == (ssize_t)count && close(fd) == 0, path);
}

/* The place of the nth copy of the piece in the file. */
static size_t find(const char *directory, const char *name, const char *piece, int nth) {
    size_t length = load_file(directory, name), from = 0;
    uint8_t *at = NULL;
    for (; nth > 0; nth--) {
        at = memmem(contents + from, length - from, piece, PIECE);
        must(at != NULL, "the piece is not in the file");
        from = (size_t)(at - contents) + 1;
    }
    return from - 1;
}

static void flip(const char *directory, const char *name, size_t at) {
    uint8_t byte = contents[at] ^ 1;
    put_bytes(directory, name, at, &byte, 1);
}

static void tell(const struct side *side, const char *what, const char *directory, const char *right, const char *old) {
    char found[PIECE] = {0};
    int opened = side->open(directory, 0), answer = opened == 0 ? side->text(3, found) : 0;
    const char *came = memcmp(found, right, PIECE) == 0 ? "right" : "WRONG text, no error";
    if (memcmp(found, old, PIECE) == 0) came = "the OLD text, no error";
    if (opened != 0 || answer != 0) came = "refused: an error, no text";
    printf("| %s | %s | %s |\n", what, side->name, came);
    if (opened == 0) side->close();
}

/* Page 3 has the text `old`, then `right`; both went to the pages. */
static void prepare(const struct side *side, const char *directory, const char *old, const char *right) {
    must(side->open(directory, 1) == 0, "open");
    side->change(3, old);
    side->settle();
    if (right != NULL) side->change(3, right), side->settle();
    side->close();
}

static void flipped(const struct side *side, const char *directory, const char *old, const char *right) {
    prepare(side, directory, old, right);
    flip(directory, side->file, find(directory, side->file, right, 1) + 5);
    tell(side, "one byte of the stored page flipped", directory, right, old);
}

/* The page's block as it was before the last change. */
static void returned_old(const struct side *side, const char *directory, const char *old, const char *right) {
    static uint8_t block[4096];
    size_t size = side == &ours ? 256 : 4096, first = side == &ours ? 8 : 0;
    prepare(side, directory, old, NULL);
    size_t at = (find(directory, side->file, old, 1) - first) / size * size + first;
    memcpy(block, contents + at, size);
    must(side->open(directory, 0) == 0, "open");
    side->change(3, right);
    side->settle();
    side->close();
    put_bytes(directory, side->file, at, block, size);
    tell(side, "the page returned as it was before the last change", directory, right, old);
}

/* The store of the page is confirmed and never made. */
static void write_lost(const struct side *side, const char *directory, const char *old, const char *right) {
    prepare(side, directory, old, NULL);
    must(side->open(directory, 0) == 0, "open");
    side->change(3, right);
    losing = right;
    side->settle();
    losing = NULL;
    side->close();
    tell(side, "the write of the page confirmed and lost", directory, right, old);
}

/* The log: its newest record, or one before it. */
static void log_flipped(const struct side *side, const char *directory, const char *old, const char *right, int later) {
    const char *name = side->log != NULL ? side->log : side->file;
    must(side->open(directory, 1) == 0, "open");
    side->change(3, old);
    side->change(3, right);
    if (later) side->change(4, piece_of(7));
    side->close();
    flip(directory, name, find(directory, name, right, 1) + 5);
    tell(side, later ? "one byte of an earlier log entry flipped" : "one byte of the newest log entry flipped",
         directory, right, old);
}

static void spoil(const char *directory) {
    char own[250], old[PIECE + 1], right[PIECE + 1];
    snprintf(own, sizeof own, "%s/0", directory);
    snprintf(old, sizeof old, "%s", piece_of(11111));
    snprintf(right, sizeof right, "%s", piece_of(22222));
    for (int s = 0; s < 2; s++) flipped(sides[s], own, old, right);
    for (int s = 0; s < 2; s++) returned_old(sides[s], own, old, right);
    for (int s = 0; s < 2; s++) write_lost(sides[s], own, old, right);
    for (int s = 0; s < 2; s++) log_flipped(sides[s], own, old, right, 0);
    for (int s = 0; s < 2; s++) log_flipped(sides[s], own, old, right, 1);
}

int main(int argc, char **argv) {
    for (int i = 1; i < argc; i++) {
        char own[250];
        for (int s = 0; s < SIDES; s++) {
            snprintf(own, sizeof own, "%s/%d", argv[i], s);
            mkdir(own, 0700);
        }
        printf("\n%s\n| who | changes a second, median | best | bytes | writes | syncs |\n", argv[i]);
        printf("|---|---:|---:|---:|---:|---:|\n");
        race(argv[i]);
    }
    printf("\n| damage | who | what is read |\n|---|---|---|\n");
    spoil(argv[argc - 1]);
    return 0;
}

/* The calls that write and sync, counted: ours and SQLite's alike (libsqlite3.a is linked for that). */
#define _GNU_SOURCE
#include "sides.h"

#include <stdio.h>
#include <stdlib.h>
#include <string.h>
#include <sys/types.h>

struct counted counted;
const char *losing;

#define WRAPPED(type, name, ...) \
    type __real_##name(__VA_ARGS__); \
    type __wrap_##name(__VA_ARGS__); \
    type __wrap_##name(__VA_ARGS__)

void must(int holds, const char *what) {
    if (holds) return;
    fprintf(stderr, "bench-sqlite: %s\n", what);
    exit(1);
}

static int lost(const void *bytes, size_t count) {
    counted.bytes += count;
    counted.writes++;
    return losing != NULL && memmem(bytes, count, losing, PIECE) != NULL;
}

WRAPPED(ssize_t, pwrite, int fd, const void *bytes, size_t count, off_t offset) {
    return lost(bytes, count) ? (ssize_t)count : __real_pwrite(fd, bytes, count, offset);
}

WRAPPED(ssize_t, pwrite64, int fd, const void *bytes, size_t count, off64_t offset) {
    return lost(bytes, count) ? (ssize_t)count : __real_pwrite64(fd, bytes, count, offset);
}

WRAPPED(ssize_t, write, int fd, const void *bytes, size_t count) {
    return lost(bytes, count) ? (ssize_t)count : __real_write(fd, bytes, count);
}

WRAPPED(int, fsync, int fd) {
    counted.syncs++;
    return __real_fsync(fd);
}

WRAPPED(int, fdatasync, int fd) {
    counted.syncs++;
    return __real_fdatasync(fd);
}

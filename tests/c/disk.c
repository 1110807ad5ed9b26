#define _GNU_SOURCE
#include "disk.h"

#include <errno.h>
#include <fcntl.h>
#include <signal.h>
#include <stdio.h>
#include <stdlib.h>
#include <string.h>
#include <sys/mman.h>
#include <sys/stat.h>
#include <unistd.h>

struct disk *disk;

ssize_t __real_pwrite(int fd, const void *bytes, size_t count, off_t offset);
int __real_fdatasync(int fd);
int __real_fsync(int fd);
int __real_posix_fadvise(int fd, off_t offset, off_t length, int advice);
ssize_t __wrap_pwrite(int fd, const void *bytes, size_t count, off_t offset);
int __wrap_fdatasync(int fd);
int __wrap_fsync(int fd);
int __wrap_posix_fadvise(int fd, off_t offset, off_t length, int advice);

static void must(int holds, const char *what) {
    if (holds) return;
    perror(what);
    exit(2);
}

/* ---- the calls of the system */

/* The plan, if it is this call's turn now. */
static struct plan due(enum call call) {
    struct plan none = {NO_CALL, 0, 0, 0};
    if (disk->plan.call != (uint32_t)call || disk->plan.countdown == 0 || --disk->plan.countdown > 0) return none;
    disk->happened++;
    return disk->plan;
}

static void die(void) {
    kill(getpid(), SIGKILL);
}

static int failed(int error) {
    errno = error;
    return -1;
}

/* Marked dirty before it is written: a kill between the two leaves it old, which is as well. */
static ssize_t write_dirty(int fd, const void *bytes, size_t count, off_t offset) {
    must(disk->dirty_count < DIRTY_MAX, "a test's disk: too many writes without a sync");
    disk->dirty[disk->dirty_count].offset = (uint32_t)offset;
    disk->dirty[disk->dirty_count].length = (uint32_t)count;
    disk->dirty_count++;
    return __real_pwrite(fd, bytes, count, offset);
}

ssize_t __wrap_pwrite(int fd, const void *bytes, size_t count, off_t offset) {
    if (disk == NULL) return __real_pwrite(fd, bytes, count, offset);
    disk->writes++;
    struct plan now = due(WRITE_CALL);
    if (now.call == NO_CALL) return write_dirty(fd, bytes, count, offset);
    if (now.action == FAIL) return failed(now.error);
    if (now.action == DIE_BEFORE) die();
    int part = now.action == SHORT || now.action == SHORT_FAIL;
    ssize_t n = write_dirty(fd, bytes, part ? (count + 1) / 2 : count, offset);
    if (now.action == DIE_AFTER) die();
    if (now.action == SHORT_FAIL) disk->plan = (struct plan){WRITE_CALL, 1, FAIL, now.error};
    return n;
}

/* A directory that is synced stores nothing of a file. */
static void store_dirty(int fd) {
    struct stat status;
    if (fstat(fd, &status) != 0 || S_ISDIR(status.st_mode)) return;
    for (uint32_t i = 0; i < disk->dirty_count; i++) {
        size_t length = disk->dirty[i].length, offset = disk->dirty[i].offset;
        must(pread(fd, disk->bytes + offset, length, (off_t)offset) == (ssize_t)length, "a test's disk: pread");
    }
    disk->dirty_count = 0;
}

static int sync_dirty(int fd) {
    disk->syncs++;
    struct plan now = due(SYNC_CALL);
    if (now.call != NO_CALL && now.action == DIE_BEFORE) die();
    if (now.call != NO_CALL && now.action == FAIL) {
        disk->dirty_count = 0;
        return failed(now.error);
    }
    store_dirty(fd);
    if (now.call != NO_CALL && now.action == DIE_AFTER) die();
    return 0;
}

int __wrap_fdatasync(int fd) {
    return disk != NULL && sync_dirty(fd) != 0 ? -1 : __real_fdatasync(fd);
}

int __wrap_fsync(int fd) {
    return disk != NULL && sync_dirty(fd) != 0 ? -1 : __real_fsync(fd);
}

/* Whether the byte is dirty. */
static int is_dirty(uint32_t offset) {
    for (uint32_t i = 0; i < disk->dirty_count; i++)
        if (offset - disk->dirty[i].offset < disk->dirty[i].length) return 1;
    return 0;
}

/* DONTNEED: what is not dirty is read from the disk again. */
int __wrap_posix_fadvise(int fd, off_t offset, off_t length, int advice) {
    static uint8_t cache[DISK_MAX];
    if (disk == NULL || advice != POSIX_FADV_DONTNEED) return __real_posix_fadvise(fd, offset, length, advice);
    uint32_t size = (uint32_t)size_of(disk->counts);
    must(pread(fd, cache, size, 0) == (ssize_t)size, "a test's disk: pread");
    if (memcmp(cache, disk->bytes, size) == 0) return 0;
    for (uint32_t i = 0; i < size; i++)
        if (!is_dirty(i)) cache[i] = disk->bytes[i];
    must(__real_pwrite(fd, cache, size, 0) == (ssize_t)size, "a test's disk: pwrite");
    return 0;
}

/* ---- the disk */

struct disk *new_disk(void) {
    void *room = mmap(NULL, sizeof(struct disk), PROT_READ | PROT_WRITE, MAP_SHARED | MAP_ANONYMOUS, -1, 0);
    must(room != MAP_FAILED, "a test's disk: mmap");
    return room;
}

void disk_begin(const char *path, struct counts counts) {
    size_t size = size_of(counts);
    memset(disk, 0, sizeof *disk);
    disk->counts = counts;
    int fd = open(path, O_RDONLY | O_CLOEXEC);
    must(fd >= 0 && size <= DISK_MAX, path);
    must(pread(fd, disk->bytes, DISK_MAX, 0) == (ssize_t)size, "a test's disk: the file's length");
    must(close(fd) == 0, path);
}

void drop_cache(const char *path) {
    size_t size = size_of(disk->counts);
    disk->dirty_count = 0;
    int fd = open(path, O_WRONLY | O_CLOEXEC);
    must(fd >= 0, path);
    must(__real_pwrite(fd, disk->bytes, size, 0) == (ssize_t)size, "a test's disk: pwrite");
    must(close(fd) == 0, path);
}

/* ---- items and their checks */

struct item item_of(struct counts c, uint32_t offset) {
    size_t ends[KINDS] = {0, page_at(c.pages + 1), slot_at(c, c.slots + 1), record_at(c, c.records + 1), size_of(c)};
    size_t starts[KINDS] = {0, page_at(1), slot_at(c, 1), record_at(c, 1), note_at(c, 1)};
    uint32_t sizes[KINDS] = {4, 256, 256, 64, 16};
    for (enum kind kind = PAGE_IMAGE; kind < KINDS; kind++) {
        if (offset < starts[kind] || offset >= ends[kind]) continue;
        uint32_t number = (offset - (uint32_t)starts[kind]) / sizes[kind];
        uint32_t at = (uint32_t)starts[kind] + number * sizes[kind];
        return (struct item){kind, number + 1, at, sizes[kind]};
    }
    return (struct item){HEADING, 0, 0, 4};
}

static int image_passes(const uint8_t *image, const char *as) {
    uint8_t copy[256];
    memcpy(copy, image, sizeof copy);
    heading = as;
    seal_image(copy);
    return memcmp(copy, image, sizeof copy) == 0;
}

int passes_either(const uint8_t *volume, struct item item) {
    const uint8_t *at = volume + item.offset;
    return image_passes(at, "CHPV") || image_passes(at, "CHP2");
}

int passes(const uint8_t *volume, struct item item) {
    uint8_t copy[256];
    const uint8_t *at = volume + item.offset;
    if (item.kind == HEADING) return 1;
    if (item.kind == PAGE_IMAGE || item.kind == SLOT_IMAGE) {
        int first = volume[3] != '2', second = volume[3] != 'V';
        return (first && image_passes(at, "CHPV")) || (second && image_passes(at, "CHP2"));
    }
    memcpy(copy, at, item.length);
    seal(copy, item.length - 4);
    return memcmp(copy, at, item.length) == 0;
}

uint32_t number_at(const uint8_t *at, int width) {
    uint32_t number = 0;
    for (int i = width; i > 0; i--) number = number << 8 | at[i - 1];
    return number;
}

/* ---- random numbers (xorshift) */

static uint64_t state = 1;

void random_seed(uint64_t seed) {
    state = seed * 0x9E3779B97F4A7C15u + 0xD1B54A32D192ED03u;
    if (state == 0) state = 1;
    for (int i = 0; i < 8; i++) random_below(2);
}

uint32_t random_below(uint32_t n) {
    state ^= state << 13;
    state ^= state >> 7;
    state ^= state << 17;
    return (uint32_t)((state >> 32) % n);
}

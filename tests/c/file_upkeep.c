/* Upkeep in a file: what it answers and reports. */
#define _GNU_SOURCE
#include "file_test.h"

#include <errno.h>
#include <fcntl.h>
#include <string.h>
#include <unistd.h>

static uint32_t told(const struct pagestore_file *file, uint32_t place) { return pagestore_file_report(file)[place]; }

static int calls_are(const struct pagestore_file *file, uint32_t calls, uint32_t page) {
    return told(file, PAGESTORE_REPORT_COUNT) == calls && told(file, PAGESTORE_REPORT_PAGE) == page &&
           told(file, PAGESTORE_REPORT_LENGTH) == 0;
}

static struct pagestore_file *made(uint32_t pages, uint32_t slots, uint32_t records, uint32_t notes) {
    int answer;
    unlink(path);
    check("create", pagestore_file_create(path, pages, slots, records, notes) == 0);
    struct pagestore_file *file = open_file(2, &answer);
    check("open", answer == 0);
    return file;
}

static int put(struct pagestore_file *file, uint32_t page, uint8_t byte) {
    return pagestore_file_change(file, page, PAGESTORE_PUT, 0, 1, 0, &byte, 1);
}

static void test_rest(void) {
    struct pagestore_file *file = made(2, 3, 8, 16);
    check("no frame 0: 4", pagestore_file_upkeep(file, 0) == PAGESTORE_NO_SUCH_FRAME && calls_are(file, 0, 0));
    check("no frame 3: 4", pagestore_file_upkeep(file, 3) == PAGESTORE_NO_SUCH_FRAME && calls_are(file, 0, 0));
    check("nothing to do", pagestore_file_upkeep(file, 2) == 0 && calls_are(file, 0, 0));
    check("a page begun and changed", pagestore_file_begin(file, 1, 1, 7) == 0 && put(file, 1, 9) == 0);
    check("two forces", pagestore_file_upkeep(file, 2) == 0 && calls_are(file, 2, 0));
    check("nothing waits", pagestore_file_force(file) == (int)PAGESTORE_NOTHING);
    check("a note", pagestore_file_write(file, 1) == 0 && pagestore_file_upkeep(file, 2) == 0 && calls_are(file, 1, 0));
    check("close", pagestore_file_close(file) == 0);
}

/* Three notes for two pages: one of the two oldest is always needed, so there is no rest. */
static void test_no_rest(void) {
    static const uint32_t backed[][2] = {{1, 1}, {2, 2}, {1, 3}};
    struct pagestore_file *file = made(2, 3, 16, 3);
    for (uint32_t page = 1; page <= 2; page++) check("begin", pagestore_file_begin(file, page, page, 0) == 0);
    check("commit", pagestore_file_commit(file) == 0);
    for (int i = 0; i < 3; i++)
        check("backup", pagestore_file_backup(file, backed[i][0], backed[i][1]) == 0 && pagestore_file_note(file) == 0);
    check("too few notes: as many calls as are allowed", pagestore_file_upkeep(file, 2) == -EAGAIN
                                                             && calls_are(file, 17, 0));
    check("the handle lives", put(file, 1, 9) == 0 && pagestore_file_commit(file) == 0);
    check("close", pagestore_file_close(file) == 0);
}

/* Flips a byte of an image in the file. */
static void spoil(size_t image) {
    uint8_t byte = 0;
    int fd = open(path, O_RDWR | O_CLOEXEC);
    check("an image spoilt", fd >= 0 && pread(fd, &byte, 1, (off_t)image + 9) == 1);
    byte ^= 1;
    check("written", pwrite(fd, &byte, 1, (off_t)image + 9) == 1 && fsync(fd) == 0 && close(fd) == 0);
}

/* One change a session, with upkeep, in a log of four records; then all images of the page are spoilt. */
static void test_stuck(void) {
    static const struct counts small = {1, 2, 4, 4};
    struct pagestore_file *file = made(1, 2, 4, 4);
    int answer = pagestore_file_begin(file, 1, 1, 0), tries = 0;
    check("begin and rest", answer == 0 && pagestore_file_upkeep(file, 2) == 0 && pagestore_file_close(file) == 0);
    for (uint8_t n = 0; n < 41; n++) {
        file = open_file(2, &answer);
        answer = pagestore_file_upkeep(file, 2);
        if (answer == 0 && pagestore_file_text(file, 1) == NULL) answer = pagestore_file_load(file, 1, 1);
        check("a change after upkeep", answer == 0 && put(file, 1, n) == 0 && pagestore_file_commit(file) == 0);
        check("close", pagestore_file_close(file) == 0);
    }
    for (uint32_t slot = 0; slot <= 2; slot++) spoil(slot == 0 ? page_at(1) : slot_at(small, slot));
    file = open_file(2, &answer);
    do answer = pagestore_file_upkeep(file, 2);
    while (answer == 0 && tries++ < 8);
    check("stuck at page 1", answer == (int)PAGESTORE_PAGE_LOST && told(file, PAGESTORE_REPORT_PAGE) == 1);
    check("its load", pagestore_file_load(file, 1, 1) == (int)PAGESTORE_PAGE_LOST);
    check("close", pagestore_file_close(file) == 0);
}

void test_upkeep(void) {
    test_rest();
    test_no_rest();
    test_stuck();
    unlink(path);
}

#include "pagestore_file.h"
#include "sides.h"

#include <stdio.h>
#include <string.h>
#include <unistd.h>

static struct pagestore_file *file;

static void close_file(void) {
    must(pagestore_file_close(file) == 0, "close");
}

static int open_file(const char *directory, int fresh) {
    char path[300];
    snprintf(path, sizeof path, "%s/ours.vol", directory);
    if (fresh) {
        unlink(path);
        must(pagestore_file_create(path, PAGES, PAGES + 1, 1024, 1024) == 0, "create");
    }
    return pagestore_file_open(&file, path, PAGES);
}

/* A page in its frame; begun where it is blank. */
static void hold(uint32_t page) {
    if (pagestore_file_text(file, page) != NULL) return;
    int answer = pagestore_file_load(file, page, page);
    if (answer == (int)PAGESTORE_BLANK_PAGE) answer = pagestore_file_begin(file, page, page, ' ');
    must(answer == 0, "load");
}

static void back_up(uint32_t page) {
    int answer = (int)PAGESTORE_SLOT_IN_USE;
    for (uint32_t slot = 1; slot <= PAGES + 1 && answer == (int)PAGESTORE_SLOT_IN_USE; slot++)
        answer = pagestore_file_backup(file, page, slot);
    must(answer == 0 && pagestore_file_note(file) == 0, "backup");
}

/* Pages, then their backups: the log's records are spare. */
static void settle(void) {
    must(pagestore_file_commit(file) == 0, "commit");
    for (uint32_t page = 1; page <= PAGES; page++) {
        hold(page);
        must(pagestore_file_commit(file) == 0, "commit");
        int answer = pagestore_file_write(file, page);
        must(answer == (int)PAGESTORE_NOTHING || (answer == 0 && pagestore_file_note(file) == 0), "write");
        back_up(page);
    }
}

static void change(uint32_t page, const char *piece) {
    hold(page);
    int answer = pagestore_file_change(file, page, PAGESTORE_PUT, 100, PIECE, 0, (const uint8_t *)piece, PIECE);
    if (answer == (int)PAGESTORE_LOG_FULL) {
        settle();
        answer = pagestore_file_change(file, page, PAGESTORE_PUT, 100, PIECE, 0, (const uint8_t *)piece, PIECE);
    }
    must(answer == 0 && pagestore_file_commit(file) == 0, "change");
}

static int text(uint32_t page, char *piece) {
    uint8_t image[PAGESTORE_IMAGE_SIZE];
    int answer = pagestore_file_inspect(file, page, image, sizeof image);
    memcpy(piece, image + PAGESTORE_IMAGE_BODY + 100, PIECE);
    return answer;
}

const struct side ours = {"ours", open_file, change, text, settle, close_file, "ours.vol", NULL};

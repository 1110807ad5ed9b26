/* checks DIRECTORY: plays the four checks that support staff are taught, with the library's own calls, and leaves a
 * volume for each picture of the lesson. Only the damage is done here, in place of the disk. What it prints, a line a
 * step, tools/lesson.py makes a page of. */
#include "pagestore.h"

#include <stdio.h>
#include <stdlib.h>
#include <string.h>

enum { PAGES = 2, SLOTS = 3, RECORDS = 16, NOTES = 8, LINE = 44 };
enum { VOLUME = PAGESTORE_VOLUME_SIZE(PAGES, SLOTS, RECORDS, NOTES) };

static uint8_t volume[VOLUME], memory[PAGESTORE_MEMORY_SIZE(2)];
static uint32_t state[PAGESTORE_STATE_SIZE], report[PAGESTORE_CALL_REPORT_SIZE];
static const char *directory;

#define V volume, sizeof volume
#define M memory, sizeof memory
#define S state, PAGESTORE_STATE_SIZE
#define R report, PAGESTORE_CALL_REPORT_SIZE

/* No call of the lesson is refused: one that is ends it. */
static void done(uint32_t answer) {
    if (answer != PAGESTORE_OK) {
        fprintf(stderr, "checks: refused %u: %s\n", (unsigned)answer, pagestore_text(answer));
        exit(1);
    }
}

static void start(void) {
    done(pagestore_make(V, PAGES, SLOTS, RECORDS, NOTES));
    done(pagestore_restart(V, M, S));
}

static void begin(uint32_t page) {
    printf("do Begin page %u; Force\n", (unsigned)page);
    done(pagestore_begin(V, M, S, page, page, 0, R));
    done(pagestore_force(V, M, S, R));
}

/* A line of text at its place, durable; its words are padded with blanks and end with a new line. */
static void say_line(uint32_t page, uint32_t line, uint32_t kind, const char *words) {
    uint8_t text[LINE];
    printf("do %s page %u, line %u: %s; Force\n", kind == PAGESTORE_PUT ? "Put" : "Slide into", (unsigned)page,
           (unsigned)line, words);
    memset(text, ' ', sizeof text);
    memcpy(text, words, strlen(words));
    text[LINE - 1] = '\n';
    done(pagestore_change(V, M, S, page, kind, LINE * (line - 1), LINE, 0, text, LINE, R));
    done(pagestore_force(V, M, S, R));
}

static void write_page(uint32_t page) {
    printf("do Write page %u; Note\n", (unsigned)page);
    done(pagestore_write(V, M, S, page, R));
    done(pagestore_note(V, M, S, R));
}

static void back_up(uint32_t page, uint32_t slot) {
    printf("do Backup page %u in slot %u; Note\n", (unsigned)page, (unsigned)slot);
    done(pagestore_backup(V, M, S, page, slot, R));
    done(pagestore_note(V, M, S, R));
}

/* The volume as it is now, for a picture. */
static void keep(const char *name) {
    char path[4096];
    snprintf(path, sizeof path, "%s/%s", directory, name);
    FILE *file = fopen(path, "wb");
    if (!file || fwrite(volume, 1, sizeof volume, file) != sizeof volume || fclose(file) != 0) {
        perror(path);
        exit(1);
    }
    printf("volume %s\n", name);
}

static uint8_t *page_image(uint32_t page) {
    return volume + 8 + PAGESTORE_IMAGE_SIZE * (page - 1);
}

static uint8_t *slot_image(uint32_t slot) {
    return volume + 12 + PAGESTORE_IMAGE_SIZE * (PAGES + slot - 1);
}

static void torn_and_lost(void) {
    uint8_t old[PAGESTORE_IMAGE_SIZE], new[PAGESTORE_IMAGE_SIZE];
    printf("check A torn page, and a confirmed write that the disk lost\n");
    start();
    begin(1);
    say_line(1, 1, PAGESTORE_PUT, "06:10 bed 4 moved to 7");
    say_line(1, 2, PAGESTORE_PUT, "06:18 bed 4 is free");
    write_page(1);
    memcpy(old, page_image(1), sizeof old);
    say_line(1, 3, PAGESTORE_PUT, "06:25 porter takes bed 7 to ward 3 at noon");
    write_page(1);
    memcpy(new, page_image(1), sizeof new);
    keep("1-before.vol");
    printf("damage Power fails while the page is being written: half of the image is new, half is old.\n");
    memcpy(page_image(1) + 128, old + 128, 128);
    keep("1-torn.vol");
    printf("damage The disk confirmed the last write and lost it: the image of before is there, unhurt.\n");
    memcpy(page_image(1), old, sizeof old);
    keep("1-lost.vol");
}

static void plug_pulled(void) {
    printf("check The plug pulled while a log record is being stored\n");
    start();
    begin(1);
    say_line(1, 1, PAGESTORE_PUT, "06:10 bed 4 moved to 7");
    write_page(1);
    say_line(1, 2, PAGESTORE_PUT, "06:18 bed 4 is free");
    keep("2-before.vol");
    printf("damage The plug is pulled in that last Force: 40 of the record's 64 bytes are stored. Nobody was told that "
           "the line is kept.\n");
    memset(volume + report[PAGESTORE_REPORT_OFFSET] + 40, 0, report[PAGESTORE_REPORT_LENGTH] - 40);
    keep("2-cut.vol");
}

static void both_spoiled(void) {
    printf("check A page and its backup spoiled together\n");
    start();
    begin(1);
    say_line(1, 1, PAGESTORE_PUT, "06:10 bed 4 moved to 7");
    write_page(1);
    back_up(1, 1);
    say_line(1, 2, PAGESTORE_PUT, "06:18 bed 4 is free");
    keep("3-before.vol");
    printf("damage The disk spoils the page.\n");
    memset(page_image(1) + 20, '#', 16);
    keep("3-page.vol");
    printf("damage The disk spoils the backup too.\n");
    memset(slot_image(1) + 8, '#', 16);
    keep("3-both.vol");
}

static void old_thread(void) {
    uint8_t old[PAGESTORE_IMAGE_SIZE];
    printf("check The oldest thread reread in full\n");
    start();
    begin(1);
    say_line(1, 1, PAGESTORE_PUT, "06:10 bed 4 moved to 7");
    say_line(1, 2, PAGESTORE_PUT, "06:18 bed 4 is free");
    say_line(1, 3, PAGESTORE_PUT, "06:40 bed 4 is made up");
    write_page(1);
    memcpy(old, page_image(1), sizeof old);
    begin(2);
    say_line(2, 1, PAGESTORE_PUT, "06:42 bed 9 asks for water");
    write_page(2);
    say_line(1, 3, PAGESTORE_SLIDE, "06:31 bed 4: clean it before use");
    write_page(1);
    keep("4-before.vol");
    printf("damage The disk gives back the older image of page 1: a line is missing from it, and no gap shows.\n");
    memcpy(page_image(1), old, sizeof old);
    keep("4-old.vol");
}

int main(int argc, char **argv) {
    if (argc != 2) {
        fprintf(stderr, "usage: checks DIRECTORY\n");
        return 2;
    }
    directory = argv[1];
    torn_and_lost();
    plug_pulled();
    both_spoiled();
    old_thread();
    return 0;
}

#include "caller.h"
#include "disk.h"
#include "pagestore_file.h"

#include <errno.h>
#include <stdlib.h>
#include <string.h>
#include <unistd.h>

static struct task task;
static struct pagestore_file *file;
static uint32_t noted;  /* notes stored since all pages were renewed */

static void tell(enum tell what, int answer, struct change change) {
    struct message message;
    memset(&message, 0, sizeof message);
    message.tell = what;
    message.answer = answer;
    message.change = change;
    if (write(task.out, &message, sizeof message) != (ssize_t)sizeof message) _exit(3);
}

static void say(enum tell what, int answer) {
    tell(what, answer, (struct change){0, 0, 0, 0, 0, {0}});
}

static void end(enum tell what, int answer) {
    say(what, answer);
    _exit(0);
}

/* A dead handle answers nothing but -EIO, and its file can be opened again once it is closed. */
static void check_dead(int error) {
    uint8_t image[256];
    int answers[] = {
        pagestore_file_force(file), pagestore_file_commit(file), pagestore_file_note(file),
        pagestore_file_write(file, 1), pagestore_file_backup(file, 1, 1), pagestore_file_release(file, 1),
        pagestore_file_load(file, 1, 1), pagestore_file_begin(file, 1, 1, 0),
        pagestore_file_change(file, 1, 1, 0, 0, 0, NULL, 0), pagestore_file_inspect(file, 1, image, sizeof image),
        pagestore_file_start_carry(file), pagestore_file_restamp(file), pagestore_file_finish_carry(file),
        pagestore_file_upkeep(file, 1)
    };
    uint32_t writes = disk->writes;
    for (size_t i = 0; i < sizeof answers / sizeof *answers; i++)
        if (answers[i] != -EIO) end(MISTAKE, 100 + (int)i);
    if (pagestore_file_text(file, 1) != NULL) end(MISTAKE, 150);
    if (disk->writes != writes) end(MISTAKE, 151);
    if (pagestore_file_close(file) != 0) end(MISTAKE, 152);
    end(DEAD, error);
}

/* Every answer comes by here. */
static int answered(int answer) {
    if (answer < 0) check_dead(answer);
    return answer;
}

/* Where upkeep is followed: it comes to rest in frame 1, and whatever was pending is stored. */
static void upkeep(void) {
    if (!task.upkeep) return;
    int answer = answered(pagestore_file_upkeep(file, 1));
    if (answer != 0) end(MISTAKE, 300 + answer);
    say(UPKEPT, (int)pagestore_file_report(file)[PAGESTORE_REPORT_COUNT]);
}

/* After it no call is refused for room, nor for what is pending. */
static int unblocked(int answer) {
    if (task.upkeep && answer >= 10 && answer <= 15) end(MISTAKE, 400 + answer);
    return answer;
}

/* A call of the child's own. */
#define CALL(call) (upkeep(), unblocked(answered(call)))

/* ---- the calls that the abstract log hears of */

static void force(void) {
    say(FORCED, CALL(pagestore_file_force(file)));
}

static void commit(void) {
    say(COMMITTED, CALL(pagestore_file_commit(file)));
}

static int begin(uint32_t page, uint32_t frame, uint32_t fill) {
    tell(ASKED, 0, (struct change){page, 1, 0, 0, fill, {0}});
    int answer = CALL(pagestore_file_begin(file, page, frame, fill));
    say(ANSWERED, answer);
    return answer;
}

static int change(struct change c) {
    tell(ASKED, 0, c);
    int answer = CALL(pagestore_file_change(file, c.page, c.kind, c.offset, c.length, c.fill, c.payload, PAYLOAD));
    say(ANSWERED, answer);
    return answer;
}

/* ---- steps */

static uint32_t any_page(void) {
    return 1 + random_below(task.counts.pages);
}

/* Half of a payload's bytes are 00 or FF: a word sum cannot tell a word of the one from a word of the other. */
static struct change any_change(uint32_t page) {
    struct change c = {page, 1 + random_below(3), 0, 0, 0, {0}};
    if (random_below(8) > 0 && c.kind == 1) c.kind = 2;
    if (c.kind == 1) {
        c.fill = random_below(256);
        return c;
    }
    c.length = 1 + random_below(PAYLOAD);
    c.offset = random_below(BODY - c.length + 1);
    for (uint32_t i = 0; i < c.length; i++) {
        uint32_t word = random_below(4);
        c.payload[i] = (uint8_t)(word == 0 ? 0 : word == 1 ? 255 : random_below(256));
    }
    return c;
}

/* Brings the page into a frame; 1 where it is in one. */
static int held(uint32_t page) {
    uint32_t frame = 1 + random_below(task.frames);
    if (pagestore_file_text(file, page) != NULL) return 1;
    int answer = CALL(pagestore_file_load(file, page, frame));
    if (answer == 10) {
        commit();
        answer = CALL(pagestore_file_load(file, page, frame));
    }
    if (answer == 7) answer = begin(page, frame, random_below(256));
    if (answer == 11) commit();
    if (answer == 23) end(MISTAKE, 23);
    return answer == 0;
}

static void store_note(void) {
    if (CALL(pagestore_file_note(file)) == 0) noted++;
}

static int back_up(uint32_t page) {
    int answer = 16;
    for (uint32_t slot = 1; slot <= task.counts.slots && answer == 16; slot++)
        answer = CALL(pagestore_file_backup(file, page, slot));
    return answer;
}

/* Where the ring has no room: backed up and noted, a page's records are spare, and its notes are young again. */
static void renew(int rewrite) {
    commit();
    store_note();
    for (uint32_t page = 1; page <= task.counts.pages; page++) {
        if (!held(page)) continue;
        if (rewrite) change(any_change(page));
        commit();
        if (rewrite) CALL(pagestore_file_write(file, page));
        store_note();
        back_up(page);
        store_note();
    }
    noted = 0;
}

static void edit(void) {
    uint32_t page = any_page();
    if (!held(page)) return;
    struct change wanted = any_change(page);
    int answer = change(wanted);
    if (answer == 11) commit();
    if (answer != 12) return;
    renew(0);
    if (held(page) && change(wanted) == 12) end(LOCKED, 12);
}

/* A step of carrying a volume of the first heading over. */
static void carry(void) {
    CALL(pagestore_file_start_carry(file));
    if (CALL(pagestore_file_restamp(file)) == (int)PAGESTORE_NOTHING) CALL(pagestore_file_finish_carry(file));
}

/* Arguments that must be refused; the volume is as it was, as its pages will show. */
static void nonsense(void) {
    uint8_t bytes[PAYLOAD + 1] = {0}, image[256];
    uint32_t page = any_page(), none = task.counts.pages + 1;
    int answers[] = {
        pagestore_file_begin(file, 0, 1, 0), pagestore_file_load(file, none, 1),
        pagestore_file_load(file, page, task.frames + 1), pagestore_file_write(file, none),
        pagestore_file_backup(file, page, task.counts.slots + 1), pagestore_file_release(file, 0),
        pagestore_file_change(file, page, 4, 0, 1, 0, bytes, 1),
        pagestore_file_change(file, page, 2, 240, 5, 0, bytes, 5),
        pagestore_file_change(file, page, 2, 0, 9, 0, bytes, 8),
        pagestore_file_change(file, page, 2, 0, 45, 0, bytes, 45),
        pagestore_file_inspect(file, page, image, 255), pagestore_file_begin(file, page, 1, 256)
    };
    for (size_t i = 0; i < sizeof answers / sizeof *answers; i++)
        if (answered(answers[i]) < 1 || answers[i] > 25) end(MISTAKE, 200 + (int)i);
}

static void step(void) {
    uint32_t page = any_page(), kind = random_below(100);
    uint8_t image[256];
    if (kind < 30) edit();
    else if (kind < 44) force();
    else if (kind < 50) commit();
    else if (kind < 66) CALL(pagestore_file_write(file, page));
    else if (kind < 78) back_up(page);
    else if (kind < 93) store_note();
    else if (kind < 95) CALL(pagestore_file_release(file, page));
    else if (kind < 98) CALL(pagestore_file_inspect(file, page, image, sizeof image));
    else nonsense();
    if (task.carry && random_below(16) == 0) carry();
}

void caller(struct task given) {
    task = given;
    int answer = pagestore_file_open(&file, task.path, task.frames);
    if (answer < 0 && disk->happened > 0) end(DEAD, answer);
    if (answer != 0) end(MISTAKE, answer);
    int room = !task.upkeep && task.counts.notes > 4 * task.counts.pages + 4;
    if (room && random_below(4) == 0) renew(1);
    for (uint32_t i = 0; i < task.steps; i++) {
        if (room && noted + 2 * task.counts.pages + 4 > task.counts.notes) renew(1);
        step();
    }
    if (random_below(2) == 0) commit();
    if (pagestore_file_close(file) != 0) end(MISTAKE, 1);
    _exit(0);
}

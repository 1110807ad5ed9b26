/* The calls on the state through the C functions: every refusal of every call, lengths and numbers that do not fit.
 * After each call: the answer, what a refusal leaves, what is const, the told range. Prints a line a check; exits with
 * 1 if one fails. */
#include "box.h"
#include "check.h"

#include <string.h>

static struct box b;
static const struct counts SMALL = {3, 2, 4, 4};

/* Shorter calls. */
#define IS(name, wanted, ...) check(name, box_answers(&b, (struct asked){.call = __VA_ARGS__}, wanted))
#define DONE(...) IS(#__VA_ARGS__, PAGESTORE_OK, __VA_ARGS__)
#define PUT_AB .kind = PAGESTORE_PUT, .length = 2, .payload = "AB", .payload_len = 2

/* Page 1 begun in frame 1 and durable. */
static void begun(struct counts c, int first) {
    box_made(&b, c, 2, first);
    DONE(BEGIN, .page = 1, .frame = 1, .fill = 7);
    DONE(FORCE);
}

/* ---- 1 and 2, the same for every call ---- */

static const struct asked ANY[CALLS] = {
    {.call = BEGIN, .page = 2, .frame = 2}, {.call = LOAD, .page = 1, .frame = 2}, {.call = CHANGE, .page = 1, PUT_AB},
    {.call = FORCE}, {.call = WRITE, .page = 1}, {.call = BACKUP, .page = 1, .slot = 1}, {.call = RELEASE, .page = 1},
    {.call = STORE_NOTE}, {.call = START}, {.call = RESTAMP}, {.call = FINISH},
};

/* The state with one number changed is refused 2, and leaves it. */
static int unsound(size_t place, uint32_t number, struct asked a) {
    uint32_t old = b.state[place];
    b.state[place] = number;
    int well = box_answers(&b, a, PAGESTORE_BAD_BUFFER);
    b.state[place] = old;
    return well;
}

/* The volume is of the heading that the call takes. */
static void unlike(enum operation call) {
    struct asked a = ANY[call];
    begun(SMALL, call == START || call >= RESTAMP);
    if (call >= RESTAMP) DONE(START);
    b.memory_len--;
    check("a memory one byte short: 2", box_answers(&b, a, PAGESTORE_BAD_BUFFER));
    b.memory_len = PAGESTORE_MEMORY_SIZE(0);
    check("no frames: 2", box_answers(&b, a, PAGESTORE_BAD_BUFFER));
    b.memory_len = PAGESTORE_MEMORY_SIZE(17);
    check("17 frames: 2", box_answers(&b, a, PAGESTORE_BAD_BUFFER));
    b.memory_len = PAGESTORE_MEMORY_SIZE(2);
    for (size_t n = 359; n <= 361; n += 2) {
        b.state_len = n;
        check("a state of 359 or 361 numbers: 2", box_answers(&b, a, PAGESTORE_BAD_BUFFER));
    }
    b.state_len = PAGESTORE_STATE_SIZE;
    for (size_t n = 4; n <= 6; n += 2) {
        b.report_len = n;
        check("a report of 4 or 6 numbers: 2", box_answers(&b, a, PAGESTORE_BAD_BUFFER));
        b.volume_len--;
        check("that, and a volume one byte short: 1", box_answers(&b, a, PAGESTORE_BAD_VOLUME));
        b.volume_len++;
    }
    b.report_len = PAGESTORE_CALL_REPORT_SIZE;
    b.volume_len--;
    check("a volume one byte short: 1", box_answers(&b, a, PAGESTORE_BAD_VOLUME));
    b.volume_len++;
    check("a frame's page 65,537: 2", unsound(PAGESTORE_STATE_FRAMES, 65537, a));
    check("a frame dirty 3: 2", unsound(PAGESTORE_STATE_FRAMES + 1, 3, a));
    check("the last frame dirty 2: 2", unsound(PAGESTORE_STATE_FRAMES + 31, 2, a));
    check("a slot 256: 2", unsound(PAGESTORE_STATE_PAGES + 3, 256, a));
    check("the last page's slot 256: 2", unsound(PAGESTORE_STATE_PAGES + 63 * 5 + 3, 256, a));
    for (size_t k = 1; k < 5; k++)
        check("a note's number where there is none: 2", unsound(PAGESTORE_STATE_NOTE + k, 1, a));
    check("17 pending: 2, not sound", unsound(PAGESTORE_STATE_PENDING, 17, a));
    b.state[PAGESTORE_STATE_NOTE] = 1;
    b.state[PAGESTORE_STATE_NOTE + 1] = 1;
    b.state[PAGESTORE_STATE_NOTE + 2] = 1;
    b.state[PAGESTORE_STATE_NOTE + 4] = 1;
    check("a note of kind 3: 2", unsound(PAGESTORE_STATE_NOTE, 3, a));
    check("a note of kind 257: 2", unsound(PAGESTORE_STATE_NOTE, 257, a));
    check("a note's page 65,537: 2", unsound(PAGESTORE_STATE_NOTE + 2, 65537, a));
    check("a note's slot 256: 2", unsound(PAGESTORE_STATE_NOTE + 3, 256, a));
}

/* ---- the other rows ---- */

static void pages_and_frames(void) {
    begun(SMALL, 0);
    const enum operation paged[] = {BEGIN, LOAD, CHANGE, WRITE, BACKUP, RELEASE};
    for (size_t i = 0; i < sizeof paged / sizeof paged[0]; i++) {
        const uint32_t pages[] = {0, 4, 65537, 4294967295u};
        for (size_t k = 0; k < 4; k++) {
            struct asked a = {.call = paged[i], .page = pages[k], .frame = 99, .slot = 99, .kind = 99, .fill = 999};
            check("a page that is not there: 3", box_answers(&b, a, PAGESTORE_NO_SUCH_PAGE));
        }
    }
    IS("begin, frame 3: 4", PAGESTORE_NO_SUCH_FRAME, BEGIN, .page = 2, .frame = 3, .fill = 256);
    IS("begin, frame 0: 4", PAGESTORE_NO_SUCH_FRAME, BEGIN, .page = 1, .frame = 0);
    IS("load, frame 4294967295: 4", PAGESTORE_NO_SUCH_FRAME, LOAD, .page = 2, .frame = 4294967295u);
    IS("begin, fill 256: 6", PAGESTORE_BAD_CHANGE, BEGIN, .page = 2, .frame = 2, .fill = 256);
    IS("begin, fill 256, not blank: 6", PAGESTORE_BAD_CHANGE, BEGIN, .page = 1, .frame = 2, .fill = 256);
    IS("backup, slot 0: 5", PAGESTORE_NO_SUCH_SLOT, BACKUP, .page = 2, .slot = 0);
    IS("backup, slot 3: 5", PAGESTORE_NO_SUCH_SLOT, BACKUP, .page = 2, .slot = 3);
    IS("backup, slot 258: 5", PAGESTORE_NO_SUCH_SLOT, BACKUP, .page = 1, .slot = 258);
    IS("begin, not blank: 9", PAGESTORE_PAGE_IN_USE, BEGIN, .page = 1, .frame = 2);
    IS("load, in a frame: 9", PAGESTORE_PAGE_IN_USE, LOAD, .page = 1, .frame = 1);
    IS("load, blank: 7", PAGESTORE_BLANK_PAGE, LOAD, .page = 2, .frame = 2);
    IS("change, in no frame: 8", PAGESTORE_NO_FRAME, CHANGE, .page = 2, PUT_AB);
    IS("write, in no frame: 8", PAGESTORE_NO_FRAME, WRITE, .page = 2);
    IS("backup, in no frame: 8", PAGESTORE_NO_FRAME, BACKUP, .page = 2, .slot = 1);
    IS("release, in no frame: 8", PAGESTORE_NO_FRAME, RELEASE, .page = 2);
    DONE(BEGIN, .page = 2, .frame = 2);
    IS("begin over a pending change: 10", PAGESTORE_CHANGE_PENDING, BEGIN, .page = 3, .frame = 2);
    IS("release a pending change: 10", PAGESTORE_CHANGE_PENDING, RELEASE, .page = 2);
    DONE(RELEASE, .page = 1);
    IS("load over a pending change: 10", PAGESTORE_CHANGE_PENDING, LOAD, .page = 1, .frame = 2);
    IS("write a pending change: 15", PAGESTORE_NOT_DURABLE, WRITE, .page = 2);
    IS("backup a pending change: 15", PAGESTORE_NOT_DURABLE, BACKUP, .page = 2, .slot = 1);
}

/* Numbers of a change that no record holds, and its kinds' rules. */
static void changes(void) {
    static const struct asked bad[] = {
        {.kind = 0}, {.kind = 4}, {.kind = 258, .length = 2}, {.kind = PAGESTORE_FORMAT, .length = 1},
        {.kind = PAGESTORE_FORMAT, .offset = 1}, {.kind = PAGESTORE_FORMAT, .fill = 256}, {.kind = PAGESTORE_PUT},
        {.kind = PAGESTORE_PUT, .length = 45}, {.kind = PAGESTORE_PUT, .length = 3},
        {.kind = PAGESTORE_PUT, .length = 257}, {.kind = PAGESTORE_PUT, .length = 2, .fill = 1},
        {.kind = PAGESTORE_SLIDE, .length = 2, .offset = 243}, {.kind = PAGESTORE_SLIDE, .length = 2, .offset = 65536},
        {.kind = PAGESTORE_SLIDE, .length = 2, .offset = 4294967295u},
    };
    static const char bytes[45] = "AB";
    begun(SMALL, 0);
    for (size_t i = 0; i < sizeof bad / sizeof bad[0]; i++) {
        struct asked a = bad[i];
        a.call = CHANGE;
        a.page = 1;
        a.payload = bytes;
        a.payload_len = a.length == 45 ? 45 : 2;
        check("a change that breaks its rule: 6", box_answers(&b, a, PAGESTORE_BAD_CHANGE));
    }
    IS("a payload of 45 bytes: 6", PAGESTORE_BAD_CHANGE, CHANGE, .page = 1, .kind = PAGESTORE_PUT, .length = 2,
       .payload = bytes, .payload_len = 45);
    IS("put, no payload: 6", PAGESTORE_BAD_CHANGE, CHANGE, .page = 1, .kind = PAGESTORE_PUT, .length = 1);
    IS("before 8: 6", PAGESTORE_BAD_CHANGE, CHANGE, .page = 2, .kind = 4);
    DONE(CHANGE, .page = 1, .kind = PAGESTORE_FORMAT, .fill = 255);
    DONE(CHANGE, .page = 1, .kind = PAGESTORE_SLIDE, .length = 2, .offset = 242, .payload = bytes, .payload_len = 44);
    const uint8_t *body = pagestore_body(b.memory, 1);
    check("its body", body[241] == 255 && memcmp(body + 242, "AB", 2) == 0);
}

/* The log and the notes full, 16 pending. */
static void full(void) {
    const struct counts ring = {2, 2, 2, 4}, wide = {1, 0, 40, 0}, plain = {1, 1, 1, 1};
    begun(wide, 0);
    for (int i = 0; i < 16; i++) DONE(CHANGE, .page = 1, PUT_AB);
    IS("change, 16 pending: 11", PAGESTORE_PENDING_FULL, CHANGE, .page = 1, PUT_AB);
    DONE(FORCE);
    DONE(CHANGE, .page = 1, PUT_AB);
    box_made(&b, (struct counts){17, 0, 40, 0}, 16, 0);
    for (uint32_t p = 1; p <= 16; p++) DONE(BEGIN, .page = p, .frame = p);
    IS("begin, a frame's change pending: 10 before 11", PAGESTORE_CHANGE_PENDING, BEGIN, .page = 17, .frame = 1);
    for (int i = 0; i < 16; i++) DONE(FORCE);
    for (int i = 0; i < 16; i++) DONE(CHANGE, .page = 2, PUT_AB);
    IS("begin, 16 pending: 11", PAGESTORE_PENDING_FULL, BEGIN, .page = 17, .frame = 1);
    begun(plain, 1);
    IS("change, log full: 12", PAGESTORE_LOG_FULL, CHANGE, .page = 1, PUT_AB);
    IS("write, page 1", PAGESTORE_OK, WRITE, .page = 1);
    IS("write a clean page", PAGESTORE_NOTHING, WRITE, .page = 1);
    IS("backup, a note pending: 13", PAGESTORE_NOTE_PENDING, BACKUP, .page = 1, .slot = 1);
    DONE(STORE_NOTE);
    IS("no note pending", PAGESTORE_NOTHING, STORE_NOTE);
    IS("nothing to force", PAGESTORE_NOTHING, FORCE);
    IS("backup, notes full: 14", PAGESTORE_NOTES_FULL, BACKUP, .page = 1, .slot = 1);
    begun(wide, 0);
    IS("write, no notes: 14", PAGESTORE_NOTES_FULL, WRITE, .page = 1);
    begun(ring, 0);
    DONE(CHANGE, .page = 1, PUT_AB);
    DONE(FORCE);
    IS("begin, the ring's record is needed: 12", PAGESTORE_LOG_FULL, BEGIN, .page = 2, .frame = 2);
    DONE(BACKUP, .page = 1, .slot = 1);
    IS("write, a note pending: 13", PAGESTORE_NOTE_PENDING, WRITE, .page = 1);
    DONE(STORE_NOTE);
    IS("the slot holds a noted backup: 16", PAGESTORE_SLOT_IN_USE, BACKUP, .page = 1, .slot = 1);
    DONE(BEGIN, .page = 2, .frame = 2);
}

/* A page lost below the run, a broken record, a broken log and broken notes. */
static void broken(void) {
    const struct counts ring = {2, 2, 2, 4};
    begun(ring, 0);
    DONE(BACKUP, .page = 1, .slot = 1);
    DONE(STORE_NOTE);
    DONE(BEGIN, .page = 2, .frame = 2);
    DONE(FORCE);
    DONE(CHANGE, .page = 2, PUT_AB);
    DONE(FORCE);
    DONE(RELEASE, .page = 1);
    box_poke(&b, slot_at(ring, 1) + 9, 1);
    IS("load, lost below the run: 23", PAGESTORE_PAGE_LOST, LOAD, .page = 1, .frame = 1);
    box_poke(&b, slot_at(ring, 1) + 9, 1);
    DONE(LOAD, .page = 1, .frame = 1);
    begun(SMALL, 1);
    DONE(RELEASE, .page = 1);
    box_poke(&b, record_at(SMALL, 1) + 20, 1);
    IS("load, its record broken: 19", PAGESTORE_BAD_RECORD, LOAD, .page = 1, .frame = 1);
    box_poke(&b, record_at(SMALL, 1) + 20, 1);
    DONE(LOAD, .page = 1, .frame = 1);
    DONE(WRITE, .page = 1);
    DONE(STORE_NOTE);
    box_poke(&b, record_at(SMALL, 3) + 20, 1);
    check("restart, a broken log: 17", box_restarted(&b) == PAGESTORE_BAD_LOG);
    uint32_t any = 0;
    for (size_t i = 0; i < PAGESTORE_STATE_SIZE; i++) any |= b.state[i];
    check("its state is zeros", any == 0);
    box_poke(&b, record_at(SMALL, 3) + 20, 1);
    note(b.volume + note_at(SMALL, 1), 1, 1, WRITTEN, 1, 1);
    check("restart, broken notes: 18", box_restarted(&b) == PAGESTORE_BAD_NOTES);
    b.state_len = 0;
    check("restart, no state: 2",
          pagestore_restart(b.volume, b.volume_len, b.memory, b.memory_len, NULL, 0) == PAGESTORE_BAD_BUFFER);
    b.memory_len++;
    check("restart, a memory one byte long: 2", box_restarted(&b) == PAGESTORE_BAD_BUFFER);
    b.volume_len++;
    check("restart, a volume one byte long: 1", box_restarted(&b) == PAGESTORE_BAD_VOLUME);
}

/* A volume of the first heading carried over. */
static void carried(void) {
    begun(SMALL, 1);
    DONE(WRITE, .page = 1);
    DONE(STORE_NOTE);
    IS("restamp, first heading: 1", PAGESTORE_BAD_VOLUME, RESTAMP);
    IS("finish, first heading: 1", PAGESTORE_BAD_VOLUME, FINISH);
    DONE(START);
    IS("start again: 1", PAGESTORE_BAD_VOLUME, START);
    IS("finish, an old image: 20", PAGESTORE_OLD_IMAGE, FINISH);
    DONE(RESTAMP);
    check("it was page 1's", b.report[PAGESTORE_REPORT_OFFSET] == page_at(1));
    IS("none is left", PAGESTORE_NOTHING, RESTAMP);
    DONE(FINISH);
    IS("start, second heading: 1", PAGESTORE_BAD_VOLUME, START);
    IS("restamp, second heading: 1", PAGESTORE_BAD_VOLUME, RESTAMP);
}

int main(void) {
    for (int call = 0; call < CALLS; call++) unlike((enum operation)call);
    pages_and_frames();
    changes();
    full();
    broken();
    carried();
    return verdict();
}

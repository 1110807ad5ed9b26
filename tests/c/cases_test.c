/* The cases K3 to K12 by the calls on the state, what Make takes, what stands in a volume, and the texts. Prints a line
 * a check; exits with 1 if one fails. */
#include "box.h"
#include "check.h"

#include <string.h>

static struct box b;

#define IS(name, wanted, ...) check(name, box_answers(&b, (struct asked){.call = __VA_ARGS__}, wanted))
#define DONE(...) IS(#__VA_ARGS__, PAGESTORE_OK, __VA_ARGS__)

static void made(void) {
    static uint8_t v[1109];
    check("K5  1,108 bytes", pagestore_size(2, 1, 4, 4) == 1108 && PAGESTORE_VOLUME_SIZE(2, 1, 4, 4) == 1108);
    check("K5  taken", pagestore_make(v, 1108, 2, 1, 4, 4) == PAGESTORE_OK && memcmp(v, "CHP2", 4) == 0);
    check("K5  first heading", pagestore_make_first(v, 1108, 2, 1, 4, 4) == PAGESTORE_OK && memcmp(v, "CHPV", 4) == 0);
    memset(v, 0xee, sizeof v);
    check("K5  1,107 refused 1", pagestore_make(v, 1107, 2, 1, 4, 4) == PAGESTORE_BAD_VOLUME && v[0] == 0xee);
    check("1,109 refused 1", pagestore_make_first(v, 1109, 2, 1, 4, 4) == PAGESTORE_BAD_VOLUME && v[0] == 0xee);
    static const struct counts none[] = {
        {0, 0, 1, 0}, {65, 0, 1, 0}, {1, 129, 1, 0}, {1, 0, 0, 0}, {1, 0, 1025, 0}, {1, 0, 1, 1025},
        {4294967295u, 0, 1, 0},
    };
    for (size_t i = 0; i < sizeof none / sizeof none[0]; i++) {
        struct counts c = none[i];
        check("counts that no volume has", pagestore_size(c.pages, c.slots, c.records, c.notes) == 0);
    }
    check("the largest", pagestore_size(64, 128, 1024, 1024) == PAGESTORE_VOLUME_MAX);
}

/* ---- K3, K4, K6 to K12 by calls ---- */

static const struct counts CASES = {2, 1, 4, 4};

/* Records 1 format page 1, 2 format page 2, 3 put "AB" on page 1; page 2 good; page 1's image at `lsn`. */
static void laid(uint32_t lsn) {
    box_made(&b, CASES, 2, heading[3] == 'V');
    record(b.volume + record_at(CASES, 1), 1, 0, 1, FORMAT, 7, "");
    record(b.volume + record_at(CASES, 2), 2, 0, 2, FORMAT, 9, "");
    record(b.volume + record_at(CASES, 3), 3, 1, 1, PUT, 0, "AB");
    image(b.volume + page_at(1), 1, lsn, 7);
    image(b.volume + page_at(2), 2, 2, 9);
}

/* After a restart a Load of page 1 gives its body at lsn 3 (at 1 where that is good), and tells this. */
static int loads(uint32_t class, uint32_t start, uint32_t count) {
    memcpy(b.file, b.volume, b.volume_len);
    struct asked load = {.call = LOAD, .page = 1, .frame = 2};
    return box_restarted(&b) == PAGESTORE_OK && box_answers(&b, load, PAGESTORE_OK) &&
           b.report[0] == class && b.report[1] == start && b.report[2] == count &&
           pagestore_frame_of(b.state, 1) == 2 && pagestore_frame_of(b.state, 2) == 0 &&
           memcmp(pagestore_body(b.memory, 2), class == PAGESTORE_GOOD ? "\7\7\7" : "AB\7", 3) == 0;
}

static void cases(void) {
    laid(1);
    check("K6  behind, own, 1", loads(PAGESTORE_BEHIND, PAGESTORE_FROM_OWN, 1));
    note(b.volume + note_at(CASES, 1), 1, 1, WRITTEN, 0, 3);
    check("K7  stale, own, 1", loads(PAGESTORE_STALE, PAGESTORE_FROM_OWN, 1));
    laid(1);
    b.volume[page_at(1) + 100] ^= 1;
    check("K9  failed, format, 2", loads(PAGESTORE_FAILED, PAGESTORE_FROM_FORMAT, 2));
    image(b.volume + slot_at(CASES, 1), 1, 3, 7);
    memcpy(b.volume + slot_at(CASES, 1) + 8, "AB", 2);
    seal_image(b.volume + slot_at(CASES, 1));
    note(b.volume + note_at(CASES, 1), 1, 1, BACKED_UP, 1, 3);
    check("K8  failed, backup, 0", loads(PAGESTORE_FAILED, PAGESTORE_FROM_BACKUP, 0));
    laid(4);
    check("K10 ahead, format, 2", loads(PAGESTORE_AHEAD, PAGESTORE_FROM_FORMAT, 2));
    laid(1);
    b.volume[record_at(CASES, 3) + 16] ^= 1;
    check("K11 good, own, 0", loads(PAGESTORE_GOOD, PAGESTORE_FROM_OWN, 0));
    b.volume[record_at(CASES, 4) + 5] = 1;
    check("K12 refused 17", box_restarted(&b) == PAGESTORE_BAD_LOG);
    box_made(&b, (struct counts){1, 0, 9, 0}, 1, heading[3] == 'V');
    DONE(BEGIN, .page = 1, .frame = 1);
    for (int i = 0; i < 2; i++)
        DONE(CHANGE, .page = 1, .kind = PAGESTORE_SLIDE, .length = 1, .payload = "A", .payload_len = 1);
    check("K3  41 41 00", memcmp(pagestore_body(b.memory, 1), "AA", 3) == 0);
    static const char bytes[44];
    DONE(CHANGE, .page = 1, .kind = PAGESTORE_PUT, .offset = 200, .length = 44, .payload = bytes, .payload_len = 44);
    IS("K4  put of 44 at 201: 6", PAGESTORE_BAD_CHANGE, CHANGE, .page = 1, .kind = PAGESTORE_PUT, .offset = 201,
       .length = 44, .payload = bytes, .payload_len = 44);
}

/* ---- what stands in a volume ---- */

static int tells(uint32_t answer, const uint32_t *found, const uint32_t *wanted, size_t n) {
    return answer == PAGESTORE_OK && memcmp(found, wanted, n * sizeof *found) == 0;
}

static void slots(void) {
    laid(1);
    note(b.volume + note_at(CASES, 2), 2, 1, BACKED_UP, 1, 3);
    b.volume[record_at(CASES, 4) + 9] = 1;
    uint32_t f[9] = {9, 9, 9, 9, 9, 9, 9, 9, 9};
    const uint8_t *v = b.volume;
    size_t size = b.volume_len;
    check("counts, another length: 2", pagestore_counts(v, size, f, 4) == PAGESTORE_BAD_BUFFER && f[0] == 9);
    check("counts, no volume: 1", pagestore_counts(v, size - 1, f, 4) == PAGESTORE_BAD_VOLUME && f[0] == 9);
    check("counts", tells(pagestore_counts(v, size, f, 5), f, (uint32_t[]){(uint32_t)heading[3], 2, 1, 4, 4}, 5));
    f[0] = 9;
    check("record, another length: 2", pagestore_record(v, size, 9, f, 7) == PAGESTORE_BAD_BUFFER && f[0] == 9);
    check("record, no volume: 1", pagestore_record(v, size - 1, 9, f, 7) == PAGESTORE_BAD_VOLUME && f[0] == 9);
    check("record 0: 5", pagestore_record(v, size, 0, f, 8) == PAGESTORE_NO_SUCH_SLOT && f[0] == 9);
    check("record 5: 5", pagestore_record(v, size, 5, f, 8) == PAGESTORE_NO_SUCH_SLOT && f[0] == 9);
    check("record 3", tells(pagestore_record(v, size, 3, f, 8), f, (uint32_t[]){1, 3, 1, 1, 2, 2, 0, 0}, 8));
    check("record 1", tells(pagestore_record(v, size, 1, f, 8), f, (uint32_t[]){1, 1, 0, 1, 1, 0, 0, 7}, 8));
    check("record 4", tells(pagestore_record(v, size, 4, f, 8), f, (uint32_t[]){2, 0, 0, 256, 0, 0, 0, 0}, 8));
    f[0] = 9;
    check("note, another length: 2", pagestore_note_at(v, size, 9, f, 9) == PAGESTORE_BAD_BUFFER && f[0] == 9);
    check("note, no volume: 1", pagestore_note_at(v, size - 1, 9, f, 9) == PAGESTORE_BAD_VOLUME && f[0] == 9);
    check("note 5: 5", pagestore_note_at(v, size, 5, f, 8) == PAGESTORE_NO_SUCH_SLOT && f[0] == 9);
    check("note 2", tells(pagestore_note_at(v, size, 2, f, 8), f, (uint32_t[]){1, 2, 1, 2, 1, 3, 0, 0}, 8));
    check("note 1", tells(pagestore_note_at(v, size, 1, f, 8), f, (uint32_t[]){0, 0, 0, 0, 0, 0, 0, 0}, 8));
}

static void backups(void) {
    laid(1);
    uint32_t f[9] = {9, 9, 9, 9, 9, 9, 9, 9, 9};
    uint8_t *v = b.volume, *slot = v + slot_at(CASES, 1);
    size_t size = b.volume_len;
    check("slot, another length: 2", pagestore_slot(v, size, 9, f, 7) == PAGESTORE_BAD_BUFFER && f[0] == 9);
    check("slot, no volume: 1", pagestore_slot(v, size - 1, 9, f, 7) == PAGESTORE_BAD_VOLUME && f[0] == 9);
    check("slot 2: 5", pagestore_slot(v, size, 2, f, 8) == PAGESTORE_NO_SUCH_SLOT && f[0] == 9);
    memset(slot, 0, PAGESTORE_IMAGE_SIZE);
    check("slot 1, zeros", tells(pagestore_slot(v, size, 1, f, 8), f, (uint32_t[]){0, 0, 0, 0, 0, 0, 0, 0}, 8));
    chain_image(slot, CASES, 1);
    check("slot 1, page 1 at 4", tells(pagestore_slot(v, size, 1, f, 8), f, (uint32_t[]){1, 1, 4, 0, 0, 0, 0, 0}, 8));
    slot[100] ^= 1;
    check("slot 1, fails", tells(pagestore_slot(v, size, 1, f, 8), f, (uint32_t[]){2, 1, 4, 0, 0, 0, 0, 0}, 8));
    uint32_t with = pagestore_failing(v, size, b.state, PAGESTORE_STATE_SIZE);
    slot[100] ^= 1;
    uint32_t without = pagestore_failing(v, size, b.state, PAGESTORE_STATE_SIZE);
    check("failing, one more", with == without + 1 && without <= 2);
    check("failing, a wrong length", pagestore_failing(v, size, b.state, PAGESTORE_STATE_SIZE - 1) == 0);
    check("failing, no volume", pagestore_failing(v, size - 1, b.state, PAGESTORE_STATE_SIZE) == 0);
}

/* The room left, by place. */
static int left(uint32_t records, uint32_t page, uint32_t notes, uint32_t note_page) {
    uint32_t f[4] = {9, 9, 9, 9};
    return tells(pagestore_room(b.volume, b.volume_len, f, 4), f, (uint32_t[]){records, page, notes, note_page}, 4);
}

static void rooms(void) {
    uint32_t f[4] = {9, 9, 9, 9};
    const struct counts small = {3, 2, 4, 4}, ring = {2, 2, 2, 4};
    box_made(&b, small, 2, 1);
    DONE(BEGIN, .page = 1, .frame = 1);
    DONE(FORCE);
    check("room, first heading", left(3, 0, 4, 0));
    check("room, another length: 2", pagestore_room(b.volume, b.volume_len, f, 3) == PAGESTORE_BAD_BUFFER && f[0] == 9);
    check("room, no volume: 1", pagestore_room(b.volume, b.volume_len - 1, f, 3) == PAGESTORE_BAD_VOLUME && f[0] == 9);
    box_poke(&b, record_at(small, 3) + 20, 1);
    check("room, a broken log: 17", pagestore_room(b.volume, b.volume_len, f, 4) == PAGESTORE_BAD_LOG && f[0] == 9);
    box_poke(&b, record_at(small, 3) + 20, 1);
    note(b.volume + note_at(small, 1), 1, 1, WRITTEN, 1, 1);
    check("room, broken notes: 18", pagestore_room(b.volume, b.volume_len, f, 4) == PAGESTORE_BAD_NOTES && f[0] == 9);
    box_made(&b, ring, 2, 0);
    DONE(BEGIN, .page = 1, .frame = 1);
    DONE(FORCE);
    DONE(CHANGE, .page = 1, .kind = PAGESTORE_PUT, .length = 2, .payload = "AB", .payload_len = 2);
    DONE(FORCE);
    check("room, page 1 in the way", left(0, 1, 4, 0));
    DONE(BACKUP, .page = 1, .slot = 1);
    DONE(STORE_NOTE);
    check("room, it is backed up", left(2, 0, 3, 1));
}

static void texts(void) {
    check("version", pagestore_version() == PAGESTORE_VERSION);
    for (uint32_t n = 0; n <= 25; n++)
        for (uint32_t k = 0; k < n; k++) check("two texts", strcmp(pagestore_text(n), pagestore_text(k)) != 0);
    check("nothing", strcmp(pagestore_text(256), pagestore_text(26)) != 0);
    check("no answer", strcmp(pagestore_text(255), pagestore_text(4294967295u)) == 0);
}

int main(void) {
    const char *headings[] = {"CHPV", "CHP2"};
    made();
    rooms();
    texts();
    for (int i = 0; i < 2; i++) {
        heading = headings[i];
        cases();
        slots();
        backups();
    }
    return verdict();
}

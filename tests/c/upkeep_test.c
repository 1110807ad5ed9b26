/* Upkeep through the C function: its refusals in their order, what it says of a store at rest, every call that it names
 * while a small ring turns, and a page that is lost. Prints a line a check; exits with 1 if one fails. */
#include "box.h"
#include "check.h"

#include <string.h>

static struct box b, was;
static uint32_t advice[PAGESTORE_UPKEEP_SIZE + 1];
static unsigned long named[PAGESTORE_CALL_NOTE + 1]; /* how often each call was named */
enum { FRAME = 2, ROUNDS = 2000 };

/* Asks, with this frame and a report of so many numbers; nothing that is lent for reading changes. */
static uint32_t asked(uint32_t frame, size_t numbers) {
    was = b;
    uint32_t answer = pagestore_upkeep(b.volume, b.volume_len, b.memory, b.memory_len, b.state, b.state_len, frame,
                                       advice, numbers);
    if (memcmp(&was, &b, sizeof b) != 0) failures++;
    return answer;
}

/* ---- refusals */

static void refused(const char *name, uint32_t frame, size_t numbers, uint32_t wanted) {
    uint32_t before[PAGESTORE_UPKEEP_SIZE + 1];
    memset(advice, 0xee, sizeof advice);
    memcpy(before, advice, sizeof advice);
    check(name, asked(frame, numbers) == wanted && memcmp(before, advice, sizeof advice) == 0);
}

static void refusals(void) {
    box_made(&b, (struct counts){1, 2, 4, 4}, 2, 0);
    refused("frame 0: 4", 0, 8, PAGESTORE_NO_SUCH_FRAME);
    refused("frame 3 of 2: 4", 3, 8, PAGESTORE_NO_SUCH_FRAME);
    refused("a report of 7 numbers, no frame: 2", 0, 7, PAGESTORE_BAD_BUFFER);
    refused("a report of 9 numbers: 2", FRAME, 9, PAGESTORE_BAD_BUFFER);
    b.state_len--;
    refused("a state of 359 numbers, no frame: 2", 0, 8, PAGESTORE_BAD_BUFFER);
    b.state_len++;
    b.state[PAGESTORE_STATE_FRAMES + 1] = 2;
    refused("a frame dirty 2: 2", FRAME, 8, PAGESTORE_BAD_BUFFER);
    b.state[PAGESTORE_STATE_FRAMES + 1] = 0;
    b.state[PAGESTORE_STATE_PENDING] = 17;
    refused("17 pending, not sound: 2", 0, 8, PAGESTORE_BAD_BUFFER);
    b.state[PAGESTORE_STATE_PENDING] = 0;
    b.memory_len--;
    refused("a memory one byte short: 2", FRAME, 8, PAGESTORE_BAD_BUFFER);
    b.volume_len--;
    refused("and a volume one byte short: 1", 0, 8, PAGESTORE_BAD_VOLUME);
    refused("and a report of 7 numbers: 1", 0, 7, PAGESTORE_BAD_VOLUME);
}

/* ---- what it says */

static int says(uint32_t kind, uint32_t number, uint32_t page, uint32_t place) {
    uint32_t row[] = {kind, number, page, place, 0, 0, 0, 0};
    return asked(FRAME, PAGESTORE_UPKEEP_SIZE) == 0 && memcmp(row, advice, sizeof row) == 0;
}

static int done(struct asked a) { return box_answers(&b, a, PAGESTORE_OK); }

static void first_steps(void) {
    box_made(&b, (struct counts){1, 2, 4, 4}, 2, 0);
    memset(advice, 0xee, sizeof advice);
    check("a new store: nothing to do", says(PAGESTORE_UPKEEP_IDLE, 0, 0, 0) && advice[8] == 0xeeeeeeee);
    check("begun", done((struct asked){.call = BEGIN, .page = 1, .frame = 1, .fill = 7}));
    check("a record is pending: force", says(PAGESTORE_UPKEEP_CALL, PAGESTORE_CALL_FORCE, 0, 0));
    check("forced", done((struct asked){.call = FORCE}));
    check("nothing to do", says(PAGESTORE_UPKEEP_IDLE, 0, 0, 0));
    check("written", done((struct asked){.call = WRITE, .page = 1}));
    check("a note is pending: note", says(PAGESTORE_UPKEEP_CALL, PAGESTORE_CALL_NOTE, 0, 0));
    check("noted", done((struct asked){.call = STORE_NOTE}));
    for (int i = 0; i < 2; i++)
        check("changed", done((struct asked){.call = CHANGE, .page = 1, .kind = PAGESTORE_PUT, .length = 1,
                                             .payload = "x", .payload_len = 1}) && done((struct asked){.call = FORCE}));
    check("half the log is to be spare: a backup in slot 1",
          says(PAGESTORE_UPKEEP_CALL, PAGESTORE_CALL_BACKUP, 1, 1));
}

/* ---- a ring that turns */

/* The call that was named; a put's byte is the one that stands first in the page. */
static int follow(void) {
    char byte = (char)advice[PAGESTORE_UPKEEP_BYTE];
    uint32_t number = advice[PAGESTORE_UPKEEP_NUMBER], page = advice[PAGESTORE_UPKEEP_PAGE];
    uint32_t place = advice[PAGESTORE_UPKEEP_PLACE], held = pagestore_frame_of(b.state, page);
    int put = number == PAGESTORE_CALL_CHANGE;
    int shaped = (place != 0) == (number == PAGESTORE_CALL_LOAD || number == PAGESTORE_CALL_BACKUP) &&
                 (page != 0) == (number != PAGESTORE_CALL_FORCE && number != PAGESTORE_CALL_NOTE) &&
                 advice[PAGESTORE_UPKEEP_CHANGE] == (put ? PAGESTORE_PUT : 0) &&
                 advice[PAGESTORE_UPKEEP_LENGTH] == (put ? 1 : 0) && advice[PAGESTORE_UPKEEP_OFFSET] == 0 &&
                 (uint8_t)byte == (put && held != 0 ? pagestore_body(b.memory, held)[0] : 0);
    if (!shaped || number < PAGESTORE_CALL_LOAD || number > PAGESTORE_CALL_NOTE) return 0;
    named[number]++;
    switch (number) {
    case PAGESTORE_CALL_LOAD: return place == FRAME && done((struct asked){.call = LOAD, .page = page, .frame = place});
    case PAGESTORE_CALL_CHANGE:
        return done((struct asked){.call = CHANGE, .page = page, .kind = PAGESTORE_PUT, .length = 1, .payload = &byte,
                                   .payload_len = 1});
    case PAGESTORE_CALL_FORCE: return done((struct asked){.call = FORCE});
    case PAGESTORE_CALL_WRITE: return done((struct asked){.call = WRITE, .page = page});
    case PAGESTORE_CALL_BACKUP: return done((struct asked){.call = BACKUP, .page = page, .slot = place});
    default: return done((struct asked){.call = STORE_NOTE});
    }
}

/* Follows upkeep until there is nothing to do, or until it names `stop`: whether it came to that within K calls. */
static int at_rest(uint32_t pages, uint32_t stop) {
    for (uint32_t calls = 0; calls <= 8 * pages + 1; calls++) {
        if (asked(FRAME, PAGESTORE_UPKEEP_SIZE) != 0) return 0;
        if (advice[PAGESTORE_UPKEEP_KIND] == PAGESTORE_UPKEEP_STUCK) return 0;
        if (advice[PAGESTORE_UPKEEP_KIND] == PAGESTORE_UPKEEP_IDLE) return 1;
        if (stop != 0 && advice[PAGESTORE_UPKEEP_NUMBER] == stop) return 1;
        if (!follow()) return 0;
    }
    return 0;
}

/* The frame that the page is in once upkeep is at rest; 0 where it is in none, or upkeep does not come to rest. */
static uint32_t held(uint32_t page, uint32_t pages, int *well) {
    *well = *well && at_rest(pages, 0);
    return *well ? pagestore_frame_of(b.state, page) : 0;
}

/* One round of a user: a page is loaded or begun, changed, now and then written, and released; upkeep before each. */
static int round_of(uint32_t n, uint32_t pages) {
    char bytes[2] = {(char)n, (char)(n >> 8)};
    uint32_t page = 1 + n % pages, frame;
    int well = 1, blank = b.state[PAGESTORE_STATE_PAGES + 5 * (page - 1)] == 0;
    struct asked in = {.call = blank ? BEGIN : LOAD, .page = page, .frame = 1, .fill = n % 256};
    struct asked put = {.call = CHANGE, .page = page, .kind = PAGESTORE_PUT, .offset = n % 200, .length = 2,
                        .payload = bytes, .payload_len = 2};
    if (held(page, pages, &well) == 0) well = well && done(in);
    if (held(page, pages, &well) != 0) well = done(put);
    frame = held(page, pages, &well);
    if (frame != 0 && n % 5 < 2 && b.state[PAGESTORE_STATE_FRAMES + 2 * (frame - 1) + 1] == 1)
        well = done((struct asked){.call = WRITE, .page = page});
    if (held(page, pages, &well) != 0 && n % 3 == 0) well = done((struct asked){.call = RELEASE, .page = page});
    return well;
}

static void turns(struct counts c) {
    uint32_t n = 0;
    int well = 1;
    box_made(&b, c, 2, 0);
    for (; n < ROUNDS && well; n++) well = round_of(n, c.pages);
    printf("       P %u, B %u, L %u, N %u: %u records, %u notes\n", c.pages, c.slots, c.records, c.notes,
           (unsigned)b.state[PAGESTORE_STATE_DURABLE], (unsigned)b.state[PAGESTORE_STATE_NOTES]);
    check("a ring that turns: no call of the user or of upkeep is refused", well);
    check("the log turned a hundred times", b.state[PAGESTORE_STATE_DURABLE] > 100 * c.records);
    check("and the notes", b.state[PAGESTORE_STATE_NOTES] > 100 * c.notes);
}

/* ---- a lost page */

static void lost(void) {
    struct counts c = {1, 2, 4, 4};
    uint32_t n = 0;
    box_made(&b, c, 2, 0);
    for (; n < 100; n++) (void)round_of(n, 1);
    for (; n < 300 && advice[PAGESTORE_UPKEEP_NUMBER] != PAGESTORE_CALL_LOAD; n++) {
        char byte = (char)n;
        (void)(at_rest(1, 0) && done((struct asked){.call = LOAD, .page = 1, .frame = 1}));
        (void)(at_rest(1, 0) && done((struct asked){.call = CHANGE, .page = 1, .kind = PAGESTORE_PUT, .length = 1,
                                                     .payload = &byte, .payload_len = 1}));
        (void)(done((struct asked){.call = FORCE}) && done((struct asked){.call = RELEASE, .page = 1}));
        (void)at_rest(1, PAGESTORE_CALL_LOAD);
    }
    check("it names the load of page 1 in its frame", says(PAGESTORE_UPKEEP_CALL, PAGESTORE_CALL_LOAD, 1, FRAME));
    box_poke(&b, page_at(1) + 9, 1);
    check("the image is damaged: as before", says(PAGESTORE_UPKEEP_CALL, PAGESTORE_CALL_LOAD, 1, FRAME));
    box_poke(&b, slot_at(c, b.state[PAGESTORE_STATE_PAGES + 3]) + 9, 1);
    check("and the backup: stuck at page 1", says(PAGESTORE_UPKEEP_STUCK, 0, 1, 0));
    check("which is lost", box_answers(&b, (struct asked){.call = LOAD, .page = 1, .frame = 1}, PAGESTORE_PAGE_LOST));
}

int main(void) {
    refusals();
    first_steps();
    turns((struct counts){1, 2, 4, 4});
    turns((struct counts){3, 4, 10, 8});
    check("every call of upkeep's was named", named[PAGESTORE_CALL_LOAD] && named[PAGESTORE_CALL_CHANGE] &&
              named[PAGESTORE_CALL_FORCE] && named[PAGESTORE_CALL_WRITE] && named[PAGESTORE_CALL_BACKUP] &&
              named[PAGESTORE_CALL_NOTE]);
    lost();
    return verdict();
}

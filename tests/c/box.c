#include "box.h"

#include <stdio.h>
#include <string.h>

void box_made(struct box *b, struct counts c, uint32_t frames, int first) {
    memset(b, 0xee, sizeof *b);
    b->volume_len = pagestore_size(c.pages, c.slots, c.records, c.notes);
    b->memory_len = PAGESTORE_MEMORY_SIZE(frames);
    b->report_len = PAGESTORE_CALL_REPORT_SIZE;
    uint32_t answer = (first ? pagestore_make_first : pagestore_make)(b->volume, b->volume_len, c.pages, c.slots,
                                                                     c.records, c.notes);
    memcpy(b->file, b->volume, b->volume_len);
    if (answer != PAGESTORE_OK || box_restarted(b) != PAGESTORE_OK) printf("FAILED a store could not be made\n");
}

uint32_t box_restarted(struct box *b) {
    b->state_len = PAGESTORE_STATE_SIZE;
    return pagestore_restart(b->volume, b->volume_len, b->memory, b->memory_len, b->state, b->state_len);
}

#define VOLUME b->volume, b->volume_len
#define MEMORY b->memory, b->memory_len
#define STATE b->state, b->state_len
#define REPORT b->report, b->report_len

uint32_t box_called(struct box *b, struct asked a) {
    switch (a.call) {
        case BEGIN: return pagestore_begin(VOLUME, MEMORY, STATE, a.page, a.frame, a.fill, REPORT);
        case LOAD: return pagestore_load(VOLUME, MEMORY, STATE, a.page, a.frame, REPORT);
        case CHANGE:
            return pagestore_change(VOLUME, MEMORY, STATE, a.page, a.kind, a.offset, a.length, a.fill,
                                    (const uint8_t *)a.payload, a.payload_len, REPORT);
        case FORCE: return pagestore_force(VOLUME, MEMORY, STATE, REPORT);
        case WRITE: return pagestore_write(VOLUME, MEMORY, STATE, a.page, REPORT);
        case BACKUP: return pagestore_backup(VOLUME, MEMORY, STATE, a.page, a.slot, REPORT);
        case RELEASE: return pagestore_release(VOLUME, MEMORY, STATE, a.page, REPORT);
        case STORE_NOTE: return pagestore_note(VOLUME, MEMORY, STATE, REPORT);
        case START: return pagestore_start_carry(VOLUME, MEMORY, STATE, REPORT);
        case RESTAMP: return pagestore_restamp(VOLUME, MEMORY, STATE, REPORT);
        default: return pagestore_finish_carry(VOLUME, MEMORY, STATE, REPORT);
    }
}

/* What the header calls const for the call is as it was. */
static int const_unchanged(const struct box *was, const struct box *b, enum operation call) {
    int memory = call == BEGIN || call == LOAD || call == CHANGE;
    int volume = !memory && call != RELEASE;
    return (memory || memcmp(was->memory, b->memory, sizeof b->memory) == 0) &&
           (volume || memcmp(was->volume, b->volume, sizeof b->volume) == 0);
}

static int told(const struct box *b, uint32_t answer, enum operation call) {
    uint32_t length = b->report[PAGESTORE_REPORT_LENGTH], offset = b->report[PAGESTORE_REPORT_OFFSET];
    static const uint32_t stored[CALLS] = {0, 0, 0, 64, 256, 256, 0, 16, 4, 256, 4};
    if (answer == PAGESTORE_NOTHING || stored[call] == 0) return length == 0 && offset == 0;
    return length == stored[call] && offset + length <= b->volume_len;
}

int box_answers(struct box *b, struct asked a, uint32_t wanted) {
    static struct box was;
    was = *b;
    uint32_t answer = box_called(b, a);
    if (answer != wanted) {
        printf("FAILED call %d answers %u, not %u\n", a.call, (unsigned)answer, (unsigned)wanted);
        return 0;
    }
    if (answer != PAGESTORE_OK && answer != PAGESTORE_NOTHING) return memcmp(&was, b, sizeof was) == 0;
    if (!told(b, answer, a.call) || !const_unchanged(&was, b, a.call)) return 0;
    memcpy(b->file + b->report[PAGESTORE_REPORT_OFFSET], b->volume + b->report[PAGESTORE_REPORT_OFFSET],
           b->report[PAGESTORE_REPORT_LENGTH]);
    return memcmp(b->file, b->volume, b->volume_len) == 0;
}

void box_poke(struct box *b, size_t at, uint8_t with) {
    b->volume[at] ^= with;
    b->file[at] ^= with;
}

/* A store for the tests: a volume with its memory, state and report, and a copy of the volume ("the file") that is kept
 * up to date by the told ranges alone. */
#ifndef BOX_H
#define BOX_H

#include "pagestore.h"
#include "volume.h"

enum operation { BEGIN, LOAD, CHANGE, FORCE, WRITE, BACKUP, RELEASE, STORE_NOTE, START, RESTAMP, FINISH, CALLS };

/* A call and its arguments; those that it does not take are not looked at. */
struct asked {
    enum operation call;
    uint32_t page, frame, slot, kind, offset, length, fill;
    const char *payload;
    size_t payload_len;
};

/* What a call is lent: the lengths may be wrong. */
struct box {
    uint8_t volume[PAGESTORE_VOLUME_MAX], file[PAGESTORE_VOLUME_MAX], memory[PAGESTORE_MEMORY_MAX + 257];
    uint32_t state[PAGESTORE_STATE_SIZE + 1], report[PAGESTORE_CALL_REPORT_SIZE + 1];
    size_t volume_len, memory_len, state_len, report_len;
};

/* A made and restarted store with this many frames, under either heading. */
void box_made(struct box *b, struct counts c, uint32_t frames, int first);

/* Restarts it, the state then being of the right length. */
uint32_t box_restarted(struct box *b);

/* Makes the call, and nothing else. */
uint32_t box_called(struct box *b, struct asked a);

/* Makes the call: the answer is the one that is wanted; a refusal leaves every byte and number; no byte outside of the
 * told range is changed, and the file is the volume after these bytes are copied to it. */
int box_answers(struct box *b, struct asked a, uint32_t wanted);

/* Damages the volume, and the file with it. */
void box_poke(struct box *b, size_t at, uint8_t with);

#endif

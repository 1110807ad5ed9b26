/* A sentence for each answer, and the library's version. */
#include "pagestore.h"

static const char *const REFUSALS[] = {
    "Done.",
    "This is no volume that the call takes: its magic, counts or length are wrong.",
    "The memory, state, report, buffer or area has a wrong length, or the state is not sound.",
    "The volume has no page of that number.",
    "The memory has no frame of that number.",
    "The volume has no slot of that number.",
    "The change breaks the rule of its kind.",
    "The page is blank.",
    "The page is in no frame.",
    "The page is not blank, or is in a frame already.",
    "The page in that frame has a change that is not durable yet.",
    "16 log records are pending: force them first.",
    "The log is full, or the record that would be overwritten is still needed.",
    "A note is pending: store it first.",
    "The notes are full, or the note that would be overwritten is still needed.",
    "The page's last change is not durable yet: force it first.",
    "The slot holds a noted backup.",
    "The log breaks the restart rule.",
    "The notes break the restart rule.",
    "A log record that the page's repair needs is broken.",
    "An image still has the old sum only: restamp it first.",
    "The buffer is not as long as the archive.",
    "The archive breaks its rules, or has not as many pages as the area.",
    "The page is lost: the log has turned past its records, and neither its image nor its backup serves.",
    "The whole history is not there: the log has turned past its first record.",
    "The events or settings of the rehearsal are out of range.",
};

const char *pagestore_text(uint32_t answer) {
    if (answer < sizeof REFUSALS / sizeof REFUSALS[0]) return REFUSALS[answer];
    if (answer == PAGESTORE_NOTHING) return "There was nothing to store.";
    return "This is no answer of the page store.";
}

uint32_t pagestore_version(void) { return PAGESTORE_VERSION; }

/* The page store for C: a volume made, restarted and changed, and read in many ways. docs/C.md begins at the beginning.
 *
 * Link with target/libpagestore.a, which `make library` writes (for x86-64). All functions but pagestore_text,
 * pagestore_version and the two inline ones are proved, for every input: each ends, touches no byte outside the buffers
 * that it is lent, never writes to one that is const here, and answers exactly as docs/FORMAT.md says.
 *
 * The caller guarantees what C cannot check: `volume` points to `volume_len` bytes, readable and, where it is not
 * const, writable, and likewise the others (lengths of uint32_t arrays count numbers, not bytes); no two overlap;
 * nothing else writes to them during the call; and the stack has room. A null pointer is allowed only with length 0.
 *
 * Threads: no function keeps a pointer or has a variable of its own. Calls on different volumes may run at once; one
 * volume with its memory and state has one caller at a time. Calls that only read may share a volume.
 *
 * Answers are numbers: PAGESTORE_OK, a refusal 1 to 25, or PAGESTORE_NOTHING. A refused call leaves volume, memory,
 * state, report and buffers as they were, but for pagestore_restart, which zeroes the state.
 */
#ifndef PAGESTORE_H
#define PAGESTORE_H

#include <stddef.h>
#include <stdint.h>

#ifdef __cplusplus
extern "C" {
#endif

/* ---- the library itself ---- */

/* 10,000 times the major, 100 times the minor number and the last one: of this header, and of the library linked. */
#define PAGESTORE_VERSION 10000u
uint32_t pagestore_version(void);

/* A sentence for an answer, also for a number that is none; never NULL. */
const char *pagestore_text(uint32_t answer);

/* The most bytes of stack that a call takes, whatever the volume: a call that takes the state, and any other.
 * Measured in the gate for every function of the library but the two above (tests/c/stack_test.c), not proved. Threads
 * of a server need as much. */
#define PAGESTORE_STATE_STACK 32768u
#define PAGESTORE_STACK 8192u

/* ---- answers ---- */

#define PAGESTORE_OK 0u
#define PAGESTORE_NOTHING 256u             /* there was nothing to store */

/* The refusals of docs/FORMAT.md, chapter 6. */
#define PAGESTORE_BAD_VOLUME 1u            /* magic, counts or length of the volume are wrong */
#define PAGESTORE_BAD_BUFFER 2u            /* memory, state, report or buffer: a wrong length, or a state not sound */
#define PAGESTORE_NO_SUCH_PAGE 3u          /* the page number is not 1 to P */
#define PAGESTORE_NO_SUCH_FRAME 4u         /* the frame number is not 1 to F */
#define PAGESTORE_NO_SUCH_SLOT 5u          /* the slot number is not one of the volume's */
#define PAGESTORE_BAD_CHANGE 6u            /* the change breaks its kind's rule, or a number of it fits no log record */
#define PAGESTORE_BLANK_PAGE 7u            /* the page has no log record; where only read, no durable one */
#define PAGESTORE_NO_FRAME 8u              /* the page is in no frame */
#define PAGESTORE_PAGE_IN_USE 9u           /* begin: the page is not blank; load: it is in a frame already */
#define PAGESTORE_CHANGE_PENDING 10u       /* the page in the frame has a change that is not durable */
#define PAGESTORE_PENDING_FULL 11u         /* 16 log records are pending: force first */
#define PAGESTORE_LOG_FULL 12u             /* the log has no room for one more record */
#define PAGESTORE_NOTE_PENDING 13u         /* a note is pending: store it first */
#define PAGESTORE_NOTES_FULL 14u           /* there is no room for one more note */
#define PAGESTORE_NOT_DURABLE 15u          /* the page's last change is not durable: force first */
#define PAGESTORE_SLOT_IN_USE 16u          /* the slot holds a noted backup */
#define PAGESTORE_BAD_LOG 17u              /* the log breaks the restart rule */
#define PAGESTORE_BAD_NOTES 18u            /* the notes break the restart rule */
#define PAGESTORE_BAD_RECORD 19u           /* a log record that the page's repair needs is broken */
#define PAGESTORE_OLD_IMAGE 20u            /* an image has the old sum only: restamp first */
#define PAGESTORE_BAD_LENGTH 21u           /* the buffer is not as long as the archive */
#define PAGESTORE_BAD_ARCHIVE 22u          /* the archive breaks its rules, or has not as many pages as the area */
#define PAGESTORE_PAGE_LOST 23u            /* the log has turned past the page's records; no image or backup serves */
#define PAGESTORE_HISTORY_LOST 24u         /* the log has turned past record 1: the whole history is not there */
#define PAGESTORE_BAD_REHEARSAL 25u        /* events or settings of a rehearsal (no function here gives it) */

/* ---- the volume ---- */

/* P pages, B backup slots, L log records and N notes: P 1 to 64, B 0 to 128, L 1 to 1,024, N 0 to 1,024. */
#define PAGESTORE_PAGES_MAX 64u
#define PAGESTORE_SLOTS_MAX 128u
#define PAGESTORE_RECORDS_MAX 1024u
#define PAGESTORE_NOTES_MAX 1024u
#define PAGESTORE_VOLUME_SIZE(pages, slots, records, notes) \
    (20u + 256u * (pages) + 256u * (slots) + 64u * (records) + 16u * (notes))

/* The size of the largest volume. */
#define PAGESTORE_VOLUME_MAX 131092u

/* The image of a page or a backup: its size, offsets, and the size of the body. */
#define PAGESTORE_IMAGE_SIZE 256u
#define PAGESTORE_IMAGE_PAGE 0u            /* page number, 2 bytes, lowest first */
#define PAGESTORE_IMAGE_LSN 4u             /* log sequence number of the page's last change, 4 bytes, lowest first */
#define PAGESTORE_IMAGE_BODY 8u            /* body, PAGESTORE_BODY_SIZE bytes */
#define PAGESTORE_BODY_SIZE 244u

/* The length of a volume with these counts, or 0 where there is none. */
uint32_t pagestore_size(uint32_t pages, uint32_t slots, uint32_t records, uint32_t notes);

/* Makes an empty volume in a buffer of that length (else BAD_VOLUME): whatever it held is lost. Under the second
 * heading, with two log records or more, log and notes are rings (docs/FORMAT.md, chapter 4); pagestore_make_first
 * writes the first, for older boxes. */
uint32_t pagestore_make(uint8_t *volume, size_t volume_len, uint32_t pages, uint32_t slots, uint32_t records,
                        uint32_t notes);
uint32_t pagestore_make_first(uint8_t *volume, size_t volume_len, uint32_t pages, uint32_t slots, uint32_t records,
                              uint32_t notes);

/* What a volume's heading says, by place: its tag, and the four counts. */
#define PAGESTORE_COUNTS_SIZE 5u
#define PAGESTORE_COUNTS_HEADING 0u
#define PAGESTORE_COUNTS_PAGES 1u
#define PAGESTORE_COUNTS_SLOTS 2u
#define PAGESTORE_COUNTS_RECORDS 3u
#define PAGESTORE_COUNTS_NOTES 4u

#define PAGESTORE_HEADING_FIRST 86u
#define PAGESTORE_HEADING_SECOND 50u
#define PAGESTORE_HEADING_CARRY 67u        /* it is being carried over from the first to the second */

/* Writes them. Refused BAD_VOLUME, BAD_BUFFER. */
uint32_t pagestore_counts(const uint8_t *volume, size_t volume_len, uint32_t *counts, size_t counts_len);

/* ---- memory, state and report of the calls that change ---- */

/* The memory has a log buffer and F frames, 1 to 16. */
#define PAGESTORE_FRAMES_MAX 16u
#define PAGESTORE_LOG_BUFFER_SIZE 1024u
#define PAGESTORE_MEMORY_SIZE(frames) (PAGESTORE_LOG_BUFFER_SIZE + PAGESTORE_IMAGE_SIZE * (frames))
#define PAGESTORE_MEMORY_MAX 5120u

/* The state is this many numbers. The caller keeps it, passes it to each call and changes nothing in it; what a caller
 * may read of it: */
#define PAGESTORE_STATE_SIZE 360u
#define PAGESTORE_STATE_DURABLE 0u         /* log records stored */
#define PAGESTORE_STATE_PENDING 1u         /* log records that wait for a force, 0 to 16 */
#define PAGESTORE_STATE_NOTES 2u           /* notes stored */
#define PAGESTORE_STATE_NOTE 3u            /* the pending note: kind (0: there is none), number, page, slot, lsn */
#define PAGESTORE_STATE_FRAMES 8u          /* frame f at 8 + 2 * (f - 1): its page (0: it is empty), 1 if it is dirty */
#define PAGESTORE_STATE_PAGES 40u          /* page p at 40 + 5 * (p - 1): last, durable and written lsn, slot and lsn
                                              of its noted backup */
/* A number that its field cannot hold (a frame's page above 65,535, dirty above 1, a note's page above 65,535, its kind
 * above 2, a slot above 255; a note's numbers where there is none) is a state that is not sound: BAD_BUFFER. */

/* What a call tells, by place: class, start and count (pagestore_load; else 0), then offset and length of the bytes
 * that the call stored in the volume (0, 0: none). No other byte of the volume was changed: whoever keeps the volume in
 * a file writes exactly these. */
#define PAGESTORE_CALL_REPORT_SIZE 5u
#define PAGESTORE_REPORT_CLASS 0u
#define PAGESTORE_REPORT_START 1u
#define PAGESTORE_REPORT_COUNT 2u          /* log records replayed */
#define PAGESTORE_REPORT_OFFSET 3u
#define PAGESTORE_REPORT_LENGTH 4u

/* Classes: a page is healthy if its class is PAGESTORE_GOOD; every other class says that it was mended. */
#define PAGESTORE_GOOD 1u                  /* the image on disk is valid and current */
#define PAGESTORE_BEHIND 2u                /* valid; newer changes were only in the log */
#define PAGESTORE_STALE 3u                 /* valid, but older than a write that was noted */
#define PAGESTORE_FAILED 4u                /* not valid */
#define PAGESTORE_AHEAD 5u                 /* valid, but above the page's last durable record */

#define PAGESTORE_FROM_OWN 1u              /* the repair started from the page's own image */
#define PAGESTORE_FROM_BACKUP 2u           /* from its noted backup */
#define PAGESTORE_FROM_FORMAT 3u           /* from its newest format in the log */

/* The body of the page in a frame, 1 to F: PAGESTORE_BODY_SIZE bytes. */
static inline const uint8_t *pagestore_body(const uint8_t *memory, uint32_t frame) {
    return memory + PAGESTORE_MEMORY_SIZE((size_t)frame - 1) + PAGESTORE_IMAGE_BODY;
}

/* The frame that a page is in, 0 where it is in none (so for page 0). */
static inline uint32_t pagestore_frame_of(const uint32_t *state, uint32_t page) {
    for (uint32_t frame = 1; page != 0 && frame <= PAGESTORE_FRAMES_MAX; frame++)
        if (state[PAGESTORE_STATE_FRAMES + 2 * (frame - 1)] == page) return frame;
    return 0;
}

/* ---- the calls ---- */

/* Each is refused BAD_VOLUME, then BAD_BUFFER for memory, state or report, then by the numbers named, the first that
 * holds. */

/* Reads the volume, zeroes the memory, gives the state; a refused one gives a state of zeros, but leaves one that is
 * not PAGESTORE_STATE_SIZE numbers long. BAD_LOG, BAD_NOTES. */
uint32_t pagestore_restart(const uint8_t *volume, size_t volume_len, uint8_t *memory, size_t memory_len,
                           uint32_t *state, size_t state_len);

/* The first format of a blank page, in a frame; a page that is in the frame goes, if its changes are durable.
 * NO_SUCH_PAGE, NO_SUCH_FRAME, BAD_CHANGE (a fill above 255), PAGE_IN_USE, CHANGE_PENDING, PENDING_FULL, LOG_FULL. */
uint32_t pagestore_begin(const uint8_t *volume, size_t volume_len, uint8_t *memory, size_t memory_len, uint32_t *state,
                         size_t state_len, uint32_t page, uint32_t frame, uint32_t fill, uint32_t *report,
                         size_t report_len);

/* Brings a page into a frame, repaired. NO_SUCH_PAGE, NO_SUCH_FRAME, BLANK_PAGE, PAGE_IN_USE, CHANGE_PENDING,
 * BAD_RECORD, PAGE_LOST. */
uint32_t pagestore_load(const uint8_t *volume, size_t volume_len, uint8_t *memory, size_t memory_len, uint32_t *state,
                        size_t state_len, uint32_t page, uint32_t frame, uint32_t *report, size_t report_len);

/* Kinds of a change, by their rules: a format fills the body (offset and length 0); a put writes 1 to 44 bytes at the
 * offset, a slide inserts them there, and the last ones drop off (offset + length at most 244, fill 0). */
#define PAGESTORE_FORMAT 1u
#define PAGESTORE_PUT 2u
#define PAGESTORE_SLIDE 3u
#define PAGESTORE_PAYLOAD_MAX 44u

/* Changes a page in its frame, and appends a log record that waits for a force. `payload_len` is at least `length` and
 * at most 44. NO_SUCH_PAGE, BAD_CHANGE, NO_FRAME, PENDING_FULL, LOG_FULL. */
uint32_t pagestore_change(const uint8_t *volume, size_t volume_len, uint8_t *memory, size_t memory_len, uint32_t *state,
                          size_t state_len, uint32_t page, uint32_t kind, uint32_t offset, uint32_t length,
                          uint32_t fill, const uint8_t *payload, size_t payload_len, uint32_t *report,
                          size_t report_len);

/* Stores the oldest pending log record, or answers NOTHING: its change is durable once those bytes are. */
uint32_t pagestore_force(uint8_t *volume, size_t volume_len, const uint8_t *memory, size_t memory_len, uint32_t *state,
                         size_t state_len, uint32_t *report, size_t report_len);

/* Stores the image of a dirty page and leaves a note pending; NOTHING for a clean one. NO_SUCH_PAGE, NO_FRAME,
 * NOTE_PENDING, NOTES_FULL, NOT_DURABLE. */
uint32_t pagestore_write(uint8_t *volume, size_t volume_len, const uint8_t *memory, size_t memory_len, uint32_t *state,
                         size_t state_len, uint32_t page, uint32_t *report, size_t report_len);

/* Stores the page's image in a backup slot and leaves a note pending. NO_SUCH_PAGE, NO_SUCH_SLOT, NO_FRAME,
 * NOTE_PENDING, NOTES_FULL, NOT_DURABLE, SLOT_IN_USE. */
uint32_t pagestore_backup(uint8_t *volume, size_t volume_len, const uint8_t *memory, size_t memory_len, uint32_t *state,
                          size_t state_len, uint32_t page, uint32_t slot, uint32_t *report, size_t report_len);

/* Empties the frame that holds the page; nothing is stored. NO_SUCH_PAGE, NO_FRAME, CHANGE_PENDING. */
uint32_t pagestore_release(const uint8_t *volume, size_t volume_len, const uint8_t *memory, size_t memory_len,
                           uint32_t *state, size_t state_len, uint32_t page, uint32_t *report, size_t report_len);

/* Stores the pending note, or answers NOTHING: only then does the store count on the image that it names. */
uint32_t pagestore_note(uint8_t *volume, size_t volume_len, const uint8_t *memory, size_t memory_len, uint32_t *state,
                        size_t state_len, uint32_t *report, size_t report_len);

/* A volume of the first heading carried over to the second, between other calls: start, restamp until NOTHING, finish
 * (OLD_IMAGE while restamp would still store). A volume of another heading than the step's own is BAD_VOLUME. */
uint32_t pagestore_start_carry(uint8_t *volume, size_t volume_len, const uint8_t *memory, size_t memory_len,
                               uint32_t *state, size_t state_len, uint32_t *report, size_t report_len);
uint32_t pagestore_restamp(uint8_t *volume, size_t volume_len, const uint8_t *memory, size_t memory_len,
                           uint32_t *state, size_t state_len, uint32_t *report, size_t report_len);
uint32_t pagestore_finish_carry(uint8_t *volume, size_t volume_len, const uint8_t *memory, size_t memory_len,
                                uint32_t *state, size_t state_len, uint32_t *report, size_t report_len);

/* ---- upkeep: which call to make next ---- */

/* What upkeep says (docs/UPKEEP.md), by place: which of the three it is, the call to make by its number, its page, its
 * frame or slot, and of a change kind, length, offset and the byte to put; 0 where there is none. Stuck names its page.
 * Begin, release and the carrying calls are never named. */
#define PAGESTORE_UPKEEP_SIZE 8u
#define PAGESTORE_UPKEEP_KIND 0u
#define PAGESTORE_UPKEEP_NUMBER 1u
#define PAGESTORE_UPKEEP_PAGE 2u
#define PAGESTORE_UPKEEP_PLACE 3u          /* load: the frame; backup: the slot */
#define PAGESTORE_UPKEEP_CHANGE 4u         /* kind of the change, with fill 0 */
#define PAGESTORE_UPKEEP_LENGTH 5u
#define PAGESTORE_UPKEEP_OFFSET 6u
#define PAGESTORE_UPKEEP_BYTE 7u           /* first byte of the payload; it has no other */

#define PAGESTORE_UPKEEP_IDLE 0u           /* nothing to do */
#define PAGESTORE_UPKEEP_CALL 1u           /* make that call, and ask again */
#define PAGESTORE_UPKEEP_STUCK 2u          /* the page cannot be renewed: it is lost, or the box was locked before */

#define PAGESTORE_CALL_LOAD 4u
#define PAGESTORE_CALL_CHANGE 5u
#define PAGESTORE_CALL_FORCE 6u
#define PAGESTORE_CALL_WRITE 7u
#define PAGESTORE_CALL_BACKUP 8u
#define PAGESTORE_CALL_NOTE 9u

/* Writes it; `frame` is the one that is left to upkeep. BAD_VOLUME, BAD_BUFFER, NO_SUCH_FRAME. */
uint32_t pagestore_upkeep(const uint8_t *volume, size_t volume_len, const uint8_t *memory, size_t memory_len,
                          const uint32_t *state, size_t state_len, uint32_t frame, uint32_t *report,
                          size_t report_len);

/* ---- what only reads ---- */

/* Rebuilds page `page` of the volume from its durable log records into the buffer, PAGESTORE_IMAGE_SIZE bytes, checksum
 * set. NO_SUCH_PAGE, BAD_LOG, BAD_NOTES, BLANK_PAGE, PAGE_LOST. */
uint32_t pagestore_inspect(const uint8_t *volume, size_t volume_len, uint32_t page, uint8_t *buffer, size_t buffer_len);

/* As pagestore_inspect, and writes class, start and count to the report, which has PAGESTORE_REPORT_SIZE numbers. */
#define PAGESTORE_REPORT_SIZE 3u
uint32_t pagestore_examine(const uint8_t *volume, size_t volume_len, uint32_t page, uint8_t *buffer, size_t buffer_len,
                           uint32_t *report, size_t report_len);

/* The forecast (docs/FORMAT.md, chapter 4): for page p, at 2 * (p - 1), PAGESTORE_OK or PAGESTORE_PAGE_LOST, and behind
 * it the count of log records that pagestore_examine would report, 0 for a blank or a lost page. No page is built.
 * Figures past the last page are 0. BAD_LOG, BAD_NOTES. */
#define PAGESTORE_FORECAST_SIZE 128u
uint32_t pagestore_forecast(const uint8_t *volume, size_t volume_len, uint32_t *figures, size_t figures_len);

/* The room of a volume (docs/FORMAT.md, chapter 4), by place: how many more log records it takes before LOG_FULL, the
 * page that then stands in the way (0: none), and the same of notes before NOTES_FULL. BAD_LOG, BAD_NOTES. */
#define PAGESTORE_ROOM_SIZE 4u
#define PAGESTORE_ROOM_RECORDS 0u
#define PAGESTORE_ROOM_RECORDS_PAGE 1u
#define PAGESTORE_ROOM_NOTES 2u
#define PAGESTORE_ROOM_NOTES_PAGE 3u
uint32_t pagestore_room(const uint8_t *volume, size_t volume_len, uint32_t *report, size_t report_len);

/* The log archive: all durable log records of a volume, page by page (docs/FORMAT.md, chapter 10). The sizes of the
 * largest archive, of 64 pages and 1,024 log records, and of the largest area, of 64 images. */
#define PAGESTORE_ARCHIVE_MAX 65792u
#define PAGESTORE_AREA_MAX 16384u

/* The length of the volume's archive, or 0 where it is refused; pagestore_archive_write then says why. */
uint32_t pagestore_archive_length(const uint8_t *volume, size_t volume_len);

/* Writes the volume's archive into the buffer, which has exactly its length. BAD_VOLUME, BAD_LOG, BAD_NOTES,
 * HISTORY_LOST, BAD_LENGTH. */
uint32_t pagestore_archive_write(const uint8_t *volume, size_t volume_len, uint8_t *buffer, size_t buffer_len);

/* Judges the archive and rebuilds every page from it into the area, 256 bytes a page. The images have no checksum (four
 * zeros); a blank page is 256 zeros. BAD_BUFFER, BAD_ARCHIVE. */
uint32_t pagestore_archive_read(const uint8_t *archive, size_t archive_len, uint8_t *area, size_t area_len);

/* How many pages the archive has, 1 to 64, by its counts alone; 0 where they do not fit its length. The area that
 * pagestore_archive_read takes has 256 bytes for each. */
uint32_t pagestore_archive_pages(const uint8_t *archive, size_t archive_len);

/* Two volumes' logs held against each other (docs/FORMAT.md, chapter 11). The report, by place: what kind of answer it
 * is, its number, and from PAGESTORE_COMPARE_PAGES on a number for each page 1 to 64, 1 if a record behind the common
 * beginning is of it in either log, else 0. */
#define PAGESTORE_COMPARE_SIZE 66u
#define PAGESTORE_COMPARE_KIND 0u
#define PAGESTORE_COMPARE_NUMBER 1u
#define PAGESTORE_COMPARE_PAGES 2u         /* page p at PAGESTORE_COMPARE_PAGES + p - 1 */

#define PAGESTORE_LOGS_AGREE 1u            /* the number is 0 */
#define PAGESTORE_FIRST_LACKS 2u           /* the first log is a beginning of the second, and lacks that many records */
#define PAGESTORE_SECOND_LACKS 3u          /* the second is one of the first */
#define PAGESTORE_LOGS_DIFFER 4u           /* that is the number of the first record that is another change */

/* Compares the logs. BAD_VOLUME, BAD_BUFFER, BAD_LOG, BAD_NOTES, HISTORY_LOST, of either volume. */
uint32_t pagestore_compare(const uint8_t *first, size_t first_len, const uint8_t *second, size_t second_len,
                           uint32_t *report, size_t report_len);

/* What stands in a slot of the log, 1 to L, of the notes, 1 to N, or of the backups, 1 to B, by place: which of the
 * three it is, then its fields as they stand. Of a log record: lsn, previous lsn, page, kind, length, offset, fill.
 * Of a note: number, page, kind (1 written, 2 backed up), slot, lsn, 0, 0. Of a backup: page, lsn, 0, 0, 0, 0, 0. */
#define PAGESTORE_FIELDS_SIZE 8u
#define PAGESTORE_SLOT_ZEROS 0u
#define PAGESTORE_SLOT_WHOLE 1u            /* its checksum is right; a backup is valid as some page's, 1 to P */
#define PAGESTORE_SLOT_FAILS 2u

/* BAD_VOLUME, BAD_BUFFER, NO_SUCH_SLOT. */
uint32_t pagestore_record(const uint8_t *volume, size_t volume_len, uint32_t slot, uint32_t *fields, size_t fields_len);
uint32_t pagestore_note_at(const uint8_t *volume, size_t volume_len, uint32_t slot, uint32_t *fields,
                           size_t fields_len);
uint32_t pagestore_slot(const uint8_t *volume, size_t volume_len, uint32_t slot, uint32_t *fields, size_t fields_len);

/* How many images of pages and backups fail in their place, under each sum that the heading allows, by the state that a
 * restart or a call gave; 0 where the volume or the state's length is wrong. */
uint32_t pagestore_failing(const uint8_t *volume, size_t volume_len, const uint32_t *state, size_t state_len);

#ifdef __cplusplus
}
#endif

#endif

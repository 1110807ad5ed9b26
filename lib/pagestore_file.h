/* A page store in a file, for POSIX systems: the calls of pagestore.h on a volume that is kept on a disk.
 *
 * A handle owns a descriptor, the volume in memory, the frames and the state. Each call goes to the proved library;
 * what it stored is written to the file and synced before the answer is given. docs/C.md says what that promises and
 * what it asks of the disk.
 *
 * Every function gives 0 (done), a refusal 1 to 25, PAGESTORE_NOTHING (256), or a negative errno. One caller at a time
 * for a handle, and not on both sides of a fork; there are no globals. PAGESTORE_STATE_STACK bytes of stack suffice.
 */
#ifndef PAGESTORE_FILE_H
#define PAGESTORE_FILE_H

#include "pagestore.h"

#ifdef __cplusplus
extern "C" {
#endif

struct pagestore_file;

/* Makes a new volume of so many pages, backup slots, log records and notes (its owner's alone, mode 0600). It gets its
 * name when it is whole and synced: a cut leaves no half volume, at most a file PATH.xxxxxx that nobody needs. -EEXIST:
 * there is a file of that name, which is left as it is. */
int pagestore_file_create(const char *path, uint32_t pages, uint32_t slots, uint32_t records, uint32_t notes);

/* Opens the volume with 1 to 16 frames, locks it and restarts. -EWOULDBLOCK: another handle has it. Where it is refused
 * or fails *file is NULL. What is read here is on the disk: a store that a killed process left unsynced is synced
 * first, and one whose sync failed is read as the disk has it. */
int pagestore_file_open(struct pagestore_file **file, const char *path, uint32_t frames);

/* The calls. If writing or syncing fails, that call gives the errno and the handle is dead: nothing is tried again,
 * every later call gives -EIO, and the way on is to close and to open again. Whether the last store took place is open
 * until then; nothing that was answered with 0 is lost. */
int pagestore_file_begin(struct pagestore_file *file, uint32_t page, uint32_t frame, uint32_t fill);
int pagestore_file_load(struct pagestore_file *file, uint32_t page, uint32_t frame);
int pagestore_file_change(struct pagestore_file *file, uint32_t page, uint32_t kind, uint32_t offset, uint32_t length,
                          uint32_t fill, const uint8_t *payload, size_t payload_len);
int pagestore_file_force(struct pagestore_file *file);
int pagestore_file_write(struct pagestore_file *file, uint32_t page);
int pagestore_file_backup(struct pagestore_file *file, uint32_t page, uint32_t slot);
int pagestore_file_note(struct pagestore_file *file);
int pagestore_file_release(struct pagestore_file *file, uint32_t page);
int pagestore_file_start_carry(struct pagestore_file *file);
int pagestore_file_restamp(struct pagestore_file *file);
int pagestore_file_finish_carry(struct pagestore_file *file);
int pagestore_file_inspect(struct pagestore_file *file, uint32_t page, uint8_t *image, size_t image_len);

/* Forces until nothing is pending: 0 where all changes are kept. */
int pagestore_file_commit(struct pagestore_file *file);

/* Upkeep (docs/UPKEEP.md): makes the calls that pagestore_upkeep names, in the frame that is left to it, until there is
 * nothing to do. Call it after every open and before every call of yours: then none of yours is refused for room. It
 * makes at most 8 P + 1 calls, enough where B, L and N are as docs/UPKEEP.md asks; -EAGAIN: they were not enough, and
 * the handle lives. PAGE_LOST: it is stuck at a page. NO_SUCH_FRAME. The report then says two things, whatever the
 * answer: how many calls were made, at PAGESTORE_REPORT_COUNT, and the page that it is stuck at (else 0). */
#define PAGESTORE_REPORT_PAGE 0u
int pagestore_file_upkeep(struct pagestore_file *file, uint32_t frame);

/* The body of the page in its frame, PAGESTORE_BODY_SIZE bytes, good until the next call; NULL where the page is in no
 * frame or the handle is dead. */
const uint8_t *pagestore_file_text(const struct pagestore_file *file, uint32_t page);

/* The last call's report: class, start and count of a load, then place and length of what was stored; zeros where the
 * call was refused. (Of upkeep: see there.) */
const uint32_t *pagestore_file_report(const struct pagestore_file *file);

/* Unlocks and closes. Changes that were not forced are dropped, as by a cut. The handle is gone whatever is answered;
 * NULL is allowed. */
int pagestore_file_close(struct pagestore_file *file);

#ifdef __cplusplus
}
#endif

#endif

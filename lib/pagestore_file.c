/* The store in a file: see pagestore_file.h. Nothing here decides what is stored: that is proved in the library below,
 * which tells the place and length of the bytes that a call stored. Here they are written and synced, or the handle is
 * dead. */
#define _GNU_SOURCE /* mkostemp, flock */
#include "pagestore_file.h"

#include <errno.h>
#include <fcntl.h>
#include <libgen.h>
#include <limits.h>
#include <stdio.h>
#include <stdlib.h>
#include <string.h>
#include <sys/file.h>
#include <sys/stat.h>
#include <unistd.h>

struct pagestore_file {
    int fd;
    int dead;
    size_t volume_len, memory_len;
    uint32_t state[PAGESTORE_STATE_SIZE];
    uint32_t report[PAGESTORE_CALL_REPORT_SIZE];
    uint8_t memory[PAGESTORE_MEMORY_MAX];
    uint8_t volume[PAGESTORE_VOLUME_MAX];
};

/* What a handle lends to each call, before and behind the call's own arguments. */
#define LENT(f) (f)->volume, (f)->volume_len, (f)->memory, (f)->memory_len, (f)->state, PAGESTORE_STATE_SIZE
#define TOLD(f) (f)->report, PAGESTORE_CALL_REPORT_SIZE

/* ---- bytes of the file: 0 or a negative errno */

static int write_all(int fd, const uint8_t *bytes, size_t count, size_t offset) {
    while (count > 0) {
        ssize_t n = pwrite(fd, bytes, count, (off_t)offset);
        if (n < 0 && errno == EINTR) continue;
        if (n <= 0) return n < 0 ? -errno : -EIO;
        bytes += n;
        offset += (size_t)n;
        count -= (size_t)n;
    }
    return 0;
}

static int read_all(int fd, uint8_t *bytes, size_t count) {
    size_t done = 0;
    while (done < count) {
        ssize_t n = pread(fd, bytes + done, count - done, (off_t)done);
        if (n < 0 && errno == EINTR) continue;
        if (n <= 0) return n < 0 ? -errno : -EIO; /* the end: it was longer a moment ago */
        done += (size_t)n;
    }
    return 0;
}

/* ---- a new file */

static int sync_directory(const char *name) {
    int fd = open(name, O_RDONLY | O_DIRECTORY | O_CLOEXEC);
    if (fd < 0) return -errno;
    int error = fsync(fd) == 0 ? 0 : -errno;
    if (close(fd) != 0 && error == 0) error = -errno;
    return error;
}

/* Writes the bytes under a temporary name, then gives them the right one: by a link, since a rename would replace. */
static int place(const uint8_t *volume, size_t volume_len, char *temporary, const char *path) {
    int fd = mkostemp(temporary, O_CLOEXEC);
    if (fd < 0) return -errno;
    int error = write_all(fd, volume, volume_len, 0);
    if (error == 0 && fsync(fd) != 0) error = -errno;
    if (close(fd) != 0 && error == 0) error = -errno;
    if (error == 0 && link(temporary, path) != 0) error = -errno;
    if (unlink(temporary) != 0 && error == 0) error = -errno;
    return error == 0 ? sync_directory(dirname(temporary)) : error;
}

int pagestore_file_create(const char *path, uint32_t pages, uint32_t slots, uint32_t records, uint32_t notes) {
    char temporary[PATH_MAX];
    int length = snprintf(temporary, sizeof temporary, "%s.XXXXXX", path);
    if (length < 0 || (size_t)length >= sizeof temporary) return -ENAMETOOLONG;
    struct pagestore_file *file = calloc(1, sizeof *file); /* for its room alone */
    if (file == NULL) return -ENOMEM;
    file->volume_len = pagestore_size(pages, slots, records, notes);
    int answer = (int)pagestore_make(file->volume, file->volume_len, pages, slots, records, notes);
    if (answer == 0) answer = place(file->volume, file->volume_len, temporary, path);
    free(file);
    return answer;
}

/* ---- open and close */

/* Locks the file and reads it as the disk has it. Bytes that only the kernel's cache holds are no store: those that a
 * killed process left are synced first; those whose sync failed are clean in the cache, so it is told to drop them. */
static int read_volume(struct pagestore_file *file) {
    struct stat status;
    if (flock(file->fd, LOCK_EX | LOCK_NB) != 0) return -errno;
    if (fstat(file->fd, &status) != 0) return -errno;
    if (status.st_size > (off_t)PAGESTORE_VOLUME_MAX) return PAGESTORE_BAD_VOLUME;
    if (fdatasync(file->fd) != 0) return -errno;
    int error = posix_fadvise(file->fd, 0, 0, POSIX_FADV_DONTNEED);
    if (error != 0) return -error;
    file->volume_len = (size_t)status.st_size;
    return read_all(file->fd, file->volume, file->volume_len);
}

int pagestore_file_open(struct pagestore_file **opened, const char *path, uint32_t frames) {
    *opened = NULL;
    struct pagestore_file *file = calloc(1, sizeof *file);
    if (file == NULL) return -ENOMEM;
    file->fd = open(path, O_RDWR | O_CLOEXEC);
    int answer = file->fd < 0 ? -errno : read_volume(file);
    /* Frames that there is no room for are no memory: refused by Restart, in their row. */
    file->memory_len = frames <= PAGESTORE_FRAMES_MAX ? PAGESTORE_MEMORY_SIZE(frames) : 0;
    if (answer == 0) answer = (int)pagestore_restart(LENT(file));
    if (answer == 0) {
        *opened = file;
        return 0;
    }
    if (file->fd >= 0) close(file->fd); /* nothing was written: the first answer counts */
    free(file);
    return answer;
}

int pagestore_file_close(struct pagestore_file *file) {
    if (file == NULL) return 0;
    int answer = close(file->fd) == 0 ? 0 : -errno;
    free(file);
    return answer;
}

/* ---- the calls */

/* Before a call: 0 where the handle is dead. */
static int ready(struct pagestore_file *file) {
    memset(file->report, 0, sizeof file->report);
    return !file->dead;
}

/* Behind a call: what it stored is on the disk before the answer is given. A sync that failed is not tried again: a
 * second one may succeed, and says nothing of the bytes that the first one lost. */
static int settle(struct pagestore_file *file, uint32_t answer) {
    uint32_t offset = file->report[PAGESTORE_REPORT_OFFSET], length = file->report[PAGESTORE_REPORT_LENGTH];
    if (answer != PAGESTORE_OK || length == 0) return (int)answer;
    int error = write_all(file->fd, file->volume + offset, length, offset);
    if (error == 0 && fdatasync(file->fd) != 0) error = -errno;
    file->dead = error != 0;
    return error;
}

int pagestore_file_begin(struct pagestore_file *file, uint32_t page, uint32_t frame, uint32_t fill) {
    if (!ready(file)) return -EIO;
    return settle(file, pagestore_begin(LENT(file), page, frame, fill, TOLD(file)));
}

int pagestore_file_load(struct pagestore_file *file, uint32_t page, uint32_t frame) {
    if (!ready(file)) return -EIO;
    return settle(file, pagestore_load(LENT(file), page, frame, TOLD(file)));
}

int pagestore_file_change(struct pagestore_file *file, uint32_t page, uint32_t kind, uint32_t offset, uint32_t length,
                          uint32_t fill, const uint8_t *payload, size_t payload_len) {
    if (!ready(file)) return -EIO;
    return settle(file, pagestore_change(LENT(file), page, kind, offset, length, fill, payload, payload_len,
                                         TOLD(file)));
}

int pagestore_file_force(struct pagestore_file *file) {
    if (!ready(file)) return -EIO;
    return settle(file, pagestore_force(LENT(file), TOLD(file)));
}

int pagestore_file_write(struct pagestore_file *file, uint32_t page) {
    if (!ready(file)) return -EIO;
    return settle(file, pagestore_write(LENT(file), page, TOLD(file)));
}

int pagestore_file_backup(struct pagestore_file *file, uint32_t page, uint32_t slot) {
    if (!ready(file)) return -EIO;
    return settle(file, pagestore_backup(LENT(file), page, slot, TOLD(file)));
}

int pagestore_file_note(struct pagestore_file *file) {
    if (!ready(file)) return -EIO;
    return settle(file, pagestore_note(LENT(file), TOLD(file)));
}

int pagestore_file_release(struct pagestore_file *file, uint32_t page) {
    if (!ready(file)) return -EIO;
    return settle(file, pagestore_release(LENT(file), page, TOLD(file)));
}

int pagestore_file_start_carry(struct pagestore_file *file) {
    if (!ready(file)) return -EIO;
    return settle(file, pagestore_start_carry(LENT(file), TOLD(file)));
}

int pagestore_file_restamp(struct pagestore_file *file) {
    if (!ready(file)) return -EIO;
    return settle(file, pagestore_restamp(LENT(file), TOLD(file)));
}

int pagestore_file_finish_carry(struct pagestore_file *file) {
    if (!ready(file)) return -EIO;
    return settle(file, pagestore_finish_carry(LENT(file), TOLD(file)));
}

int pagestore_file_inspect(struct pagestore_file *file, uint32_t page, uint8_t *image, size_t image_len) {
    if (!ready(file)) return -EIO;
    return (int)pagestore_inspect(file->volume, file->volume_len, page, image, image_len);
}

int pagestore_file_commit(struct pagestore_file *file) {
    int answer;
    do answer = pagestore_file_force(file);
    while (answer == 0);
    return answer == (int)PAGESTORE_NOTHING ? 0 : answer;
}

/* ---- upkeep */

/* Makes the call that was advised. */
static int follow(struct pagestore_file *file, const uint32_t *advice) {
    uint32_t page = advice[PAGESTORE_UPKEEP_PAGE], place = advice[PAGESTORE_UPKEEP_PLACE];
    uint8_t byte = (uint8_t)advice[PAGESTORE_UPKEEP_BYTE];
    switch (advice[PAGESTORE_UPKEEP_NUMBER]) {
    case PAGESTORE_CALL_LOAD: return pagestore_file_load(file, page, place);
    case PAGESTORE_CALL_CHANGE:
        return pagestore_file_change(file, page, advice[PAGESTORE_UPKEEP_CHANGE], advice[PAGESTORE_UPKEEP_OFFSET],
                                     advice[PAGESTORE_UPKEEP_LENGTH], 0, &byte, 1);
    case PAGESTORE_CALL_FORCE: return pagestore_file_force(file);
    case PAGESTORE_CALL_WRITE: return pagestore_file_write(file, page);
    case PAGESTORE_CALL_BACKUP: return pagestore_file_backup(file, page, place);
    case PAGESTORE_CALL_NOTE: return pagestore_file_note(file);
    default: return -ENOSYS; /* never named */
    }
}

/* Asks what to do: PAGESTORE_NOTHING at rest, PAGESTORE_PAGE_LOST where it is stuck, 0 where a call is to be made. */
static int ask(struct pagestore_file *file, uint32_t frame, uint32_t *advice) {
    int answer = (int)pagestore_upkeep(LENT(file), frame, advice, PAGESTORE_UPKEEP_SIZE);
    if (answer != 0) return answer;
    switch (advice[PAGESTORE_UPKEEP_KIND]) {
    case PAGESTORE_UPKEEP_IDLE: return PAGESTORE_NOTHING;
    case PAGESTORE_UPKEEP_STUCK: return PAGESTORE_PAGE_LOST;
    default: return 0;
    }
}

int pagestore_file_upkeep(struct pagestore_file *file, uint32_t frame) {
    uint32_t advice[PAGESTORE_UPKEEP_SIZE] = {0}, counts[PAGESTORE_COUNTS_SIZE] = {0}, calls = 0;
    if (!ready(file)) return -EIO;
    pagestore_counts(file->volume, file->volume_len, counts, PAGESTORE_COUNTS_SIZE); /* a volume that was opened */
    int answer = ask(file, frame, advice);
    while (answer == 0 && calls <= 8 * counts[PAGESTORE_COUNTS_PAGES]) {
        answer = follow(file, advice);
        calls += answer == 0;
        if (answer == 0) answer = ask(file, frame, advice);
    }
    ready(file); /* the calls' own reports are no news */
    file->report[PAGESTORE_REPORT_COUNT] = calls;
    if (answer == (int)PAGESTORE_PAGE_LOST) file->report[PAGESTORE_REPORT_PAGE] = advice[PAGESTORE_UPKEEP_PAGE];
    if (answer == 0) return -EAGAIN;
    return answer == (int)PAGESTORE_NOTHING ? 0 : answer;
}

const uint8_t *pagestore_file_text(const struct pagestore_file *file, uint32_t page) {
    uint32_t frame = file->dead ? 0 : pagestore_frame_of(file->state, page);
    return frame == 0 ? NULL : pagestore_body(file->memory, frame);
}

const uint32_t *pagestore_file_report(const struct pagestore_file *file) {
    return file->report;
}

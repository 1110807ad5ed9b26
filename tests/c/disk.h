/* The disk under a store, as a test sees it. The file is what the kernel's cache holds; `bytes` is what is stored. A
 * write goes to the file and is dirty; a sync stores what is dirty; a power cut leaves a dirty item old, new or torn,
 * and the cache is gone. It lies in memory that the processes of a test share, so that a kill loses nothing of it.
 *
 * The library under test is plain: the linker lets its pwrite, fdatasync, fsync and
 * posix_fadvise come by here (--wrap). */
#ifndef DISK_H
#define DISK_H

#include "volume.h"

/* At the nth such call of the system from now on this happens, once. */
enum call { NO_CALL, WRITE_CALL, SYNC_CALL };
enum action {
    DIE_BEFORE,  /* the process is killed before it */
    DIE_AFTER,   /* and right behind it */
    FAIL,        /* it fails with `error`; a sync that fails stores nothing, and nothing is dirty any more */
    SHORT,       /* half of the bytes are written */
    SHORT_FAIL   /* and the next write fails with `error` */
};
struct plan {
    uint32_t call, countdown, action;
    int error;
};

enum { DISK_MAX = 65536, DIRTY_MAX = 4096 };
struct disk {
    struct plan plan;
    uint32_t happened;     /* plans that came about */
    uint32_t writes, syncs;
    struct counts counts;  /* of the volume */
    uint32_t dirty_count;
    struct {
        uint32_t offset, length;
    } dirty[DIRTY_MAX];
    uint8_t bytes[DISK_MAX];
};

/* The disk of the volume in use, or NULL: then all calls go on to the system as they are. */
extern struct disk *disk;

/* Room for one, shared with the processes that are forked later. */
struct disk *new_disk(void);

/* Takes the file as it is for stored; a file of another length than the counts give is wrong. */
void disk_begin(const char *path, struct counts counts);

/* The file becomes what is stored: the cache is gone. */
void drop_cache(const char *path);

/* The item of the volume that holds the byte at this place. */
enum kind { HEADING, PAGE_IMAGE, SLOT_IMAGE, LOG_RECORD, NOTE_ITEM, KINDS };
struct item {
    enum kind kind;
    uint32_t number, offset, length;
};
struct item item_of(struct counts counts, uint32_t offset);

/* Whether the item's check is right: for an image by the sum that the volume's heading names, or by either. */
int passes(const uint8_t *volume, struct item item);
int passes_either(const uint8_t *volume, struct item item);

/* Numbers below n, the same for the same seed. */
void random_seed(uint64_t seed);
uint32_t random_below(uint32_t n);

uint32_t number_at(const uint8_t *at, int width);

#endif

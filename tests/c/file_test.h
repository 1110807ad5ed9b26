/* What the tests of the store in a file share. */
#ifndef FILE_TEST_H
#define FILE_TEST_H

#include "disk.h"
#include "pagestore_file.h"

/* The volume of these tests, and its name. */
extern const struct counts COUNTS;
extern char path[256];

void check(const char *name, int holds);
int create(void);
struct pagestore_file *open_file(uint32_t frames, int *answer);

/* Seven stores; gives how many changes were acknowledged, and the first answer that was not 0. */
int scenario(struct pagestore_file *file, uint32_t *durable);

/* Each call of the system fails, one after the other; a process is killed between write and sync. */
void test_faults(void);
void test_killed_unsynced(void);

/* Upkeep: its answers and what it reports. */
void test_upkeep(void);

#endif

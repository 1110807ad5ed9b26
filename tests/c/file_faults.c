#define _GNU_SOURCE
#include "file_test.h"

#include <errno.h>
#include <stdio.h>
#include <string.h>
#include <sys/wait.h>
#include <unistd.h>

int scenario(struct pagestore_file *file, uint32_t *durable) {
    const uint8_t *text = (const uint8_t *)"nothing is missing from this handover, is it";
    int answer = pagestore_file_begin(file, 1, 1, 'x');
    if (answer == 0) answer = pagestore_file_change(file, 1, 2, 0, 44, 0, text, 44);
    if (answer == 0) answer = pagestore_file_force(file);
    if (answer == 0) *durable = 1, answer = pagestore_file_force(file);
    if (answer == 0) *durable = 2, answer = pagestore_file_write(file, 1);
    if (answer == 0) answer = pagestore_file_note(file);
    if (answer == 0) answer = pagestore_file_backup(file, 1, 3);
    if (answer == 0) answer = pagestore_file_note(file);
    if (answer == 0) answer = pagestore_file_change(file, 1, 3, 100, 44, 0, text, 44);
    if (answer == 0) answer = pagestore_file_commit(file);
    if (answer == 0) *durable = 3;
    return answer;
}

/* Opens again, the cache gone or not: what was acknowledged is there, at most one change more, and the text fits. */
static uint32_t look_again(const char *what, uint32_t durable, int power) {
    uint8_t image[256] = {0};
    int answer;
    if (power) drop_cache(path);
    struct pagestore_file *file = open_file(4, &answer);
    check(what, file != NULL);
    if (file == NULL) return 0;
    answer = pagestore_file_inspect(file, 1, image, sizeof image);
    uint32_t found = answer == 0 ? number_at(image + 4, 4) : 0;
    check(what, found == durable || found == durable + 1);
    check(what, found < 1 || image[251] == 'x');
    check(what, found < 2 || memcmp(image + 8, "nothing is missing", 18) == 0);
    check(what, found < 3 || memcmp(image + 108, "nothing is missing", 18) == 0);
    check(what, pagestore_file_close(file) == 0);
    return found;
}

static void one_fault(struct plan plan, int power) {
    char what[80];
    uint32_t durable = 0;
    int answer, goes_on = plan.call == WRITE_CALL && (plan.action == SHORT || plan.error == EINTR);
    snprintf(what, sizeof what, "call %u, no. %u, action %u, errno %d", plan.call, plan.countdown, plan.action,
             plan.error);
    disk = NULL;
    check(what, create() == 0);
    disk = new_disk();
    disk_begin(path, COUNTS);
    struct pagestore_file *file = open_file(2, &answer);
    disk->plan = plan;
    answer = scenario(file, &durable);
    check(what, disk->happened > 0 && answer == (goes_on ? 0 : -plan.error));
    uint32_t writes = disk->writes, syncs = disk->syncs;
    check(what, pagestore_file_force(file) == (goes_on ? 256 : -EIO));
    check(what, pagestore_file_load(file, 1, 1) == (goes_on ? 9 : -EIO));
    check(what, (pagestore_file_text(file, 1) != NULL) == goes_on);
    check(what, disk->writes == writes && disk->syncs == syncs && pagestore_file_close(file) == 0);
    uint32_t found = look_again(what, durable, power);
    check(what, look_again(what, durable, 1) == found); /* a cut takes nothing back that was shown */
    unlink(path);
}

void test_faults(void) {
    const enum action actions[] = {FAIL, SHORT, SHORT_FAIL};
    const int errors[] = {EIO, ENOSPC, EINTR};
    for (uint32_t i = 0; i < 2 * 7 * 3 * 3 * 2; i++) {
        struct plan plan = {1 + i % 2, 1 + i / 2 % 7, actions[i / 14 % 3], errors[i / 42 % 3]};
        if (plan.call == SYNC_CALL && plan.action != FAIL) continue;
        if (plan.action == SHORT_FAIL && plan.error == EINTR) continue;
        one_fault(plan, i / 126 == 1);
    }
    disk = NULL;
}

/* A process is killed between write and sync: what the next one shows has been synced, so a cut takes nothing back. */
void test_killed_unsynced(void) {
    uint8_t image[256];
    uint32_t durable = 0;
    int answer, status;
    check("create", create() == 0);
    disk = new_disk();
    disk_begin(path, COUNTS);
    disk->plan = (struct plan){WRITE_CALL, 2, DIE_AFTER, 0};
    pid_t child = fork();
    if (child == 0) {
        scenario(open_file(2, &answer), &durable);
        _exit(0);
    }
    check("killed", waitpid(child, &status, 0) == child && WIFSIGNALED(status));
    for (int turn = 0; turn < 2; turn++) {
        struct pagestore_file *file = open_file(2, &answer);
        check("shown", pagestore_file_inspect(file, 1, image, sizeof image) == 0 && number_at(image + 4, 4) == 2);
        pagestore_file_close(file);
        drop_cache(path);
    }
    disk = NULL;
    unlink(path);
}

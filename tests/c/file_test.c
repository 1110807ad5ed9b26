/* file_test [DIRECTORY]: the store in a file: names, lengths, the lock, and each call of the system failing in each
 * place of a scenario. */
#define _GNU_SOURCE
#include "file_test.h"

#include <dirent.h>
#include <errno.h>
#include <fcntl.h>
#include <pthread.h>
#include <signal.h>
#include <stdio.h>
#include <stdlib.h>
#include <string.h>
#include <sys/resource.h>
#include <sys/stat.h>
#include <sys/wait.h>
#include <unistd.h>

const struct counts COUNTS = {2, 3, 8, 16};
char path[256];
static char directory[200];
static int failures, checks;

void check(const char *name, int holds) {
    checks++;
    if (holds) return;
    printf("FAILED %s\n", name);
    failures++;
}

int create(void) {
    return pagestore_file_create(path, COUNTS.pages, COUNTS.slots, COUNTS.records, COUNTS.notes);
}

struct pagestore_file *open_file(uint32_t frames, int *answer) {
    struct pagestore_file *file;
    *answer = pagestore_file_open(&file, path, frames);
    return file;
}

/* How many files the directory holds. */
static int files(void) {
    int count = 0;
    DIR *all = opendir(directory);
    for (struct dirent *one = readdir(all); one != NULL; one = readdir(all)) count += one->d_name[0] != '.';
    closedir(all);
    return count;
}

/* ---- names */

static void test_create(void) {
    struct stat status;
    char name[5000];
    check("counts that no volume has: 1", pagestore_file_create(path, 65, 0, 1, 0) == PAGESTORE_BAD_VOLUME);
    check("no such directory", pagestore_file_create("/nowhere/at/all", 2, 3, 8, 16) == -ENOENT);
    memset(name, 'a', sizeof name);
    name[sizeof name - 1] = '\0';
    check("a name too long", pagestore_file_create(name, 2, 3, 8, 16) == -ENAMETOOLONG);
    check("nothing is left of those", files() == 0);
    check("create", create() == 0 && files() == 1);
    check("its length and mode", stat(path, &status) == 0 && (size_t)status.st_size == size_of(COUNTS)
                                     && (status.st_mode & 0777) == 0600 && status.st_nlink == 1);
    check("a second one is refused", pagestore_file_create(path, 3, 3, 8, 16) == -EEXIST && files() == 1);
    check("and the first is as it was", stat(path, &status) == 0 && (size_t)status.st_size == size_of(COUNTS));
    check("without a directory in its name", chdir(directory) == 0 && pagestore_file_create("here", 1, 0, 1, 0) == 0
                                                 && unlink("here") == 0);
    unlink(path);
}

/* A full disk, by the real limit on a file's size and by a write or a sync that fails. */
static void test_create_fails(void) {
    struct rlimit limit, small;
    getrlimit(RLIMIT_FSIZE, &limit);
    small = limit;
    small.rlim_cur = 1000;
    signal(SIGXFSZ, SIG_IGN);
    setrlimit(RLIMIT_FSIZE, &small);
    check("create past the limit", create() == -EFBIG && files() == 0);
    setrlimit(RLIMIT_FSIZE, &limit);
    disk = new_disk();
    for (uint32_t call = WRITE_CALL; call <= SYNC_CALL; call++) {
        memset(disk, 0, sizeof *disk);
        disk->plan = (struct plan){call, 1, FAIL, ENOSPC};
        check("create on a full disk leaves nothing", create() == -ENOSPC && files() == 0);
    }
    memset(disk, 0, sizeof *disk);
    disk->plan = (struct plan){WRITE_CALL, 1, SHORT, 0};
    check("create by short writes", create() == 0 && files() == 1);
    check("all is synced, the directory too", disk->dirty_count == 0 && disk->syncs == 2);
    memset(disk, 0, sizeof *disk);
    disk->plan = (struct plan){SYNC_CALL, 2, FAIL, EIO};
    unlink(path);
    check("the directory's sync fails: it is told", create() == -EIO);
    unlink(path);
    disk = NULL;
}

static void put_byte(off_t offset, int byte) {
    char one = (char)byte;
    int fd = open(path, O_WRONLY);
    check("a byte is put into the file", fd >= 0 && pwrite(fd, &one, 1, offset) == 1 && close(fd) == 0);
}

static void test_open(void) {
    struct pagestore_file *file;
    int answer;
    check("no such file", open_file(1, &answer) == NULL && answer == -ENOENT);
    check("a directory", pagestore_file_open(&file, directory, 1) == -EISDIR && file == NULL);
    check("create", create() == 0);
    check("no frame: 2", open_file(0, &answer) == NULL && answer == PAGESTORE_BAD_BUFFER);
    check("17 frames: 2", open_file(17, &answer) == NULL && answer == PAGESTORE_BAD_BUFFER);
    check("many frames: 2", open_file(0xFFFFFFFF, &answer) == NULL && answer == PAGESTORE_BAD_BUFFER);
    check("too short: 1", truncate(path, 1107) == 0 && open_file(17, &answer) == NULL && answer == 1);
    check("empty: 1", truncate(path, 0) == 0 && open_file(1, &answer) == NULL && answer == 1);
    check("too long: 1", truncate(path, 131093) == 0 && open_file(1, &answer) == NULL && answer == 1);
    check("far too long: 1", truncate(path, (off_t)1 << 40) == 0 && open_file(1, &answer) == NULL && answer == 1);
    unlink(path);
    check("create", create() == 0);
    put_byte((off_t)record_at(COUNTS, 3), 1);
    check("a broken log: 17", open_file(1, &answer) == NULL && answer == PAGESTORE_BAD_LOG);
    put_byte((off_t)record_at(COUNTS, 3), 0);
    file = open_file(16, &answer);
    check("16 frames", file != NULL && answer == 0);
    check("close", pagestore_file_close(file) == 0);
    check("close of no handle", pagestore_file_close(NULL) == 0);
    unlink(path);
}

/* ---- the lock */

/* What an open in another process answers. */
static int open_elsewhere(void) {
    int status, answer;
    pid_t child = fork();
    if (child == 0) {
        open_file(1, &answer);
        _exit(answer == 0 ? 0 : answer == -EWOULDBLOCK ? 1 : 2);
    }
    return waitpid(child, &status, 0) == child && WIFEXITED(status) ? WEXITSTATUS(status) : -1;
}

static void test_lock(void) {
    int answer, ends[2];
    char byte = 0;
    check("create", create() == 0 && pipe(ends) == 0);
    struct pagestore_file *file = open_file(1, &answer);
    check("a second handle is refused", open_file(1, &answer) == NULL && answer == -EWOULDBLOCK);
    check("so is one of another process", open_elsewhere() == 1);
    pagestore_file_close(file);
    check("closed, it can be opened", open_elsewhere() == 0);
    pid_t child = fork();
    if (child == 0) {
        open_file(1, &answer);
        if (write(ends[1], &byte, 1) != 1) _exit(1);
        pause();
    }
    check("another process has it", read(ends[0], &byte, 1) == 1 && open_elsewhere() == 1);
    kill(child, SIGKILL);
    check("killed, it has it no more", waitpid(child, &answer, 0) == child && open_elsewhere() == 0);
    close(ends[0]);
    close(ends[1]);
    unlink(path);
}

static void test_close_on_exec(void) {
    int answer, flags, found = 0;
    check("create", create() == 0);
    struct pagestore_file *file = open_file(1, &answer);
    for (int fd = 3; fd < 64; fd++) {
        flags = fcntl(fd, F_GETFD);
        found += flags >= 0 && (flags & FD_CLOEXEC);
    }
    check("the descriptor is not given on to programs", found == 1);
    pagestore_file_close(file);
    unlink(path);
}

/* ---- calls */

static void test_calls(void) {
    int answer;
    check("create", create() == 0);
    struct pagestore_file *file = open_file(2, &answer);
    const uint32_t *report = pagestore_file_report(file);
    check("in no frame: no text", pagestore_file_text(file, 1) == NULL && pagestore_file_text(file, 0) == NULL);
    check("nothing to commit", pagestore_file_commit(file) == 0 && pagestore_file_force(file) == 256);
    check("begin", pagestore_file_begin(file, 1, 2, 32) == 0 && pagestore_file_text(file, 1)[243] == 32);
    check("put", pagestore_file_change(file, 1, 2, 0, 5, 0, (const uint8_t *)"bed 4", 5) == 0);
    check("force tells what it stored", pagestore_file_force(file) == 0 && report[3] == record_at(COUNTS, 1)
                                            && report[4] == 64);
    check("refused: the report is zeros", pagestore_file_write(file, 1) == 15 && report[4] == 0);
    check("commit", pagestore_file_commit(file) == 0);
    check("write, note", pagestore_file_write(file, 1) == 0 && report[4] == 256 && pagestore_file_note(file) == 0);
    check("release", pagestore_file_release(file, 1) == 0 && pagestore_file_text(file, 1) == NULL);
    check("load", pagestore_file_load(file, 1, 1) == 0 && report[0] == PAGESTORE_GOOD && report[1] == 1);
    check("the text", memcmp(pagestore_file_text(file, 1), "bed 4 ", 6) == 0);
    check("no carrying of a new volume", pagestore_file_start_carry(file) == 1 && pagestore_file_restamp(file) == 1
                                             && pagestore_file_finish_carry(file) == 1);
    pagestore_file_close(file);
    unlink(path);
}

/* ---- the stack that the layer takes, on a painted one */

static void *no_call(void *unused) {
    return unused;
}

static void *all_calls(void *unused) {
    uint32_t durable = 0;
    int answer = pagestore_file_create(path, 64, 128, 1024, 1024);
    struct pagestore_file *file = open_file(16, &answer);
    answer = scenario(file, &durable);
    if (answer == 0) answer = pagestore_file_upkeep(file, 16);
    check("the calls on the painted stack", answer == 0 && durable == 3 && pagestore_file_close(file) == 0);
    return unused;
}

static size_t touched(void *(*calls)(void *)) {
    static uint8_t stack[1 << 18] __attribute__((aligned(4096)));
    size_t clean = 0;
    pthread_attr_t attributes;
    pthread_t thread;
    memset(stack, 0xa5, sizeof stack);
    check("a painted stack", pthread_attr_init(&attributes) == 0
                                 && pthread_attr_setstack(&attributes, stack, sizeof stack) == 0
                                 && pthread_create(&thread, &attributes, calls, NULL) == 0
                                 && pthread_join(thread, NULL) == 0);
    while (clean < sizeof stack && stack[clean] == 0xa5) clean++;
    return sizeof stack - clean;
}

/* A sanitizer has frames of its own. */
static void test_stack(void) {
#ifndef __SANITIZE_ADDRESS__
    size_t most = touched(all_calls) - touched(no_call);
    printf("stack of the layer for files: %zu bytes\n", most);
    check("the stack is enough", most > 0 && most <= PAGESTORE_STATE_STACK);
    unlink(path);
#else
    (void)touched, (void)all_calls, (void)no_call;
#endif
}

int main(int argc, char **argv) {
    snprintf(directory, sizeof directory, "%s/pagestore.XXXXXX", argc > 1 ? argv[1] : "/tmp");
    if (mkdtemp(directory) == NULL) return 2;
    snprintf(path, sizeof path, "%s/volume", directory);
    test_create();
    test_create_fails();
    test_open();
    test_lock();
    test_close_on_exec();
    test_calls();
    test_upkeep();
    test_faults();
    test_killed_unsynced();
    test_stack();
    unlink(path);
    if (chdir("/") != 0 || rmdir(directory) != 0) perror(directory);
    printf("the store in a file: %d checks, %d failed\n", checks, failures);
    return failures == 0 ? 0 : 1;
}

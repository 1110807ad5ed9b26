/* torture ROUNDS SEED DIRECTORY [upkeep]: a store in a file is killed at random moments, its power is cut in the middle
 * of a store, its images are damaged, its calls of the system fail; after each round every page is held against an
 * abstract log.
 *
 * A child makes random calls and tells each change before it is made and each stored force behind it; the parent has
 * the abstract log. A change whose force was told must be there, in order and once; of the pending ones a beginning may
 * be there. The last line tells how many were lost, and how many pages were wrong otherwise.
 *
 * With the word upkeep the child follows it before every call, on rings as small as docs/UPKEEP.md allows: no call may
 * be refused for room. Its refreshing puts have numbers of their own: there a page is held against its text alone. */
#define _GNU_SOURCE
#include "caller.h"
#include "disk.h"
#include "harm.h"
#include "pagestore_file.h"

#include <errno.h>
#include <fcntl.h>
#include <signal.h>
#include <stdio.h>
#include <stdlib.h>
#include <string.h>
#include <sys/wait.h>
#include <unistd.h>

static char path[4096];
static struct abstract_log expected;
static struct task task;
static struct disk *shared;
static int ring;         /* the volume is or becomes a ring, which counts on its backups */
static int wanted = 1;   /* a new file is wanted */
static unsigned long round_number;
static uint32_t cuts;    /* since upkeep was last at rest */
static uint32_t stored;  /* log records, when the volume was last looked at */
enum { CUTS = 8 };       /* that many are provided for */

/* ---- figures */

static struct {
    unsigned long files, turned, locked, durable, undecided, undecided_durable;
    unsigned long killed, planned, failed, interrupted, ended, second_cuts;
    unsigned long repaired[6][4], lost, wrong;
    unsigned long rests, calls, most_calls, restless;
} figures;

static void lost(unsigned long many, const char *what) {
    printf("round %lu: LOST %lu: %s (P %u, B %u, L %u, N %u, durable %u)\n", round_number, many, what,
           task.counts.pages, task.counts.slots, task.counts.records, task.counts.notes, expected.durable);
    figures.lost += many;
    wanted = 1;
}

static void wrong(const char *what, long number) {
    printf("round %lu: WRONG: %s, %ld (P %u, B %u, L %u, N %u, durable %u)\n", round_number, what, number,
           task.counts.pages, task.counts.slots, task.counts.records, task.counts.notes, expected.durable);
    figures.wrong++;
    wanted = 1;
}

static void must(int holds, const char *what) {
    if (holds) return;
    perror(what);
    exit(2);
}

/* ---- a new file */

static struct counts any_volume(void) {
    struct counts c;
    c.pages = 1 + random_below(5);
    c.slots = c.pages + 1 + random_below(3);
    c.records = 2 + random_below(random_below(4) == 0 ? 200 : 30);
    c.notes = 4 * c.pages + 5 + random_below(24);
    if (random_below(6) == 0) c.slots = random_below(3);
    if (random_below(6) == 0) c.notes = random_below(8);
    return c;
}

/* A ring as small as upkeep can do with, where every page may be written. */
static struct counts small_ring(void) {
    struct counts c;
    c.pages = 1 + random_below(4);
    c.slots = c.pages + 1 + random_below(2);
    c.records = 2 * (c.pages + CUTS) + random_below(3);
    c.notes = 2 * c.pages + 2 + random_below(3);
    return c;
}

static void make_first(struct counts c) {
    static uint8_t volume[DISK_MAX];
    size_t size = pagestore_size(c.pages, c.slots, c.records, c.notes);
    must(pagestore_make_first(volume, size, c.pages, c.slots, c.records, c.notes) == 0, "make_first");
    int fd = open(path, O_WRONLY | O_CREAT | O_EXCL | O_CLOEXEC, 0600);
    must(fd >= 0 && write(fd, volume, size) == (ssize_t)size && close(fd) == 0, path);
}

static void new_file(void) {
    struct counts c = task.upkeep ? small_ring() : any_volume();
    uint32_t first = task.upkeep ? 1 : random_below(4);
    unlink(path);
    disk = NULL;
    if (first == 0) make_first(c);
    else if (pagestore_file_create(path, c.pages, c.slots, c.records, c.notes) != 0) wrong("create", errno);
    disk = shared;
    disk_begin(path, c);
    task.counts = c;
    task.carry = first == 0 && random_below(2) == 0;
    ring = first != 0 || task.carry;
    memset(&expected, 0, sizeof expected);
    cuts = stored = 0;
    harm_begin(path, ring);
    figures.files++;
    wanted = 0;
}

/* ---- what the child tells */

static struct change asked;

static void on_forced(int answer) {
    int pending = expected.pending > 0;
    if (answer == 0 && pending) log_force(&expected), figures.durable++;
    else if (answer == 0 || pending) wrong("force answered", answer);
}

/* Upkeep forces before anything else: what was pending is durable. */
static void on_rest(unsigned long calls) {
    figures.durable += expected.pending;
    while (expected.pending > 0) log_force(&expected);
    figures.rests++;
    figures.calls += calls;
    if (calls > figures.most_calls) figures.most_calls = calls;
    cuts = 0;
}

static void on_message(const struct message *message) {
    int answer = message->answer;
    if (message->tell == ASKED) asked = message->change;
    else if (message->tell == ANSWERED && answer == 0 && expected.pending < PENDING) log_append(&expected, asked);
    else if (message->tell == ANSWERED && answer == 0) wrong("a change above 16 was taken", answer);
    else if (message->tell == FORCED) on_forced(answer);
    else if (message->tell == COMMITTED && answer != 0) wrong("commit answered", answer);
    else if (message->tell == COMMITTED) {
        figures.durable += expected.pending;
        while (expected.pending > 0) log_force(&expected);
    }
    else if (message->tell == UPKEPT) on_rest((unsigned long)answer);
    else if (message->tell == LOCKED) figures.locked++, wanted = 1;
    else if (message->tell == MISTAKE) wrong("the child's check", answer);
    else if (message->tell == DEAD && shared->happened == 0) wrong("a call failed without a cause", answer);
}

/* ---- a round */

enum end { KILLED, PLANNED, FAILED, INTERRUPTED, ENDED };

static enum end any_plan(void) {
    uint32_t kind = random_below(20), call = 1 + random_below(2), count = 1 + random_below(30);
    int error = random_below(2) == 0 ? EIO : ENOSPC;
    enum end end = kind < 9 ? PLANNED : kind < 14 ? KILLED : kind < 17 ? FAILED : kind < 19 ? INTERRUPTED : ENDED;
    struct plan plan = {NO_CALL, 0, 0, 0};
    if (end == PLANNED) plan = (struct plan){call, count, random_below(2) == 0 ? DIE_BEFORE : DIE_AFTER, 0};
    if (end == FAILED) plan = (struct plan){call, count, FAIL, error};
    if (end == FAILED && call == WRITE_CALL && random_below(2) == 0) plan.action = SHORT_FAIL;
    if (end == INTERRUPTED) plan = (struct plan){WRITE_CALL, count, random_below(2) == 0 ? SHORT : FAIL, EINTR};
    shared->plan = plan;
    shared->happened = 0;
    return end;
}

/* Reads what the child tells until it ends; kills it behind so many messages, at any moment of the next ones. */
static void listen_to(int in, pid_t child, uint32_t kill_at) {
    struct message message;
    uint32_t count = 0;
    while (read(in, &message, sizeof message) == (ssize_t)sizeof message) {
        if (++count == kill_at) {
            usleep(random_below(120));
            kill(child, SIGKILL);
        }
        on_message(&message);
    }
}

static void count_end(enum end end, int status) {
    if (WIFSIGNALED(status) && WTERMSIG(status) != SIGKILL) wrong("the child died of signal", WTERMSIG(status));
    if (WIFEXITED(status) && WEXITSTATUS(status) != 0) wrong("the child's exit status", WEXITSTATUS(status));
    if (WIFSIGNALED(status)) *(end == KILLED ? &figures.killed : &figures.planned) += 1;
    else if (shared->happened == 0) figures.ended++;
    else *(end == FAILED ? &figures.failed : &figures.interrupted) += 1;
}

static void run_child(void) {
    int ends[2], status;
    enum end end = any_plan();
    uint64_t seed = (uint64_t)random_below(0xFFFFFFFF) << 32 | random_below(0xFFFFFFFF);
    task.frames = 1 + task.upkeep + random_below(4);
    task.steps = end == KILLED ? 4000 : 40 + random_below(160);
    must(pipe(ends) == 0, "pipe");
    pid_t child = fork();
    must(child >= 0, "fork");
    if (child == 0) {
        close(ends[0]);
        random_seed(seed);
        task.out = ends[1];
        caller(task);
    }
    close(ends[1]);
    listen_to(ends[0], child, end == KILLED ? 1 + random_below(120) : 0);
    close(ends[0]);
    must(waitpid(child, &status, 0) == child, "waitpid");
    count_end(end, status);
    shared->plan.call = NO_CALL;
}

/* ---- every page against the abstract log */

static int same_page(uint32_t page, const uint8_t *body, uint32_t number) {
    return (task.upkeep || number == expected.number[page]) && memcmp(body, expected.body[page], BODY) == 0;
}

/* How many changes of the volume are durable: the number of the last one. */
static uint32_t last_number(struct pagestore_file *file) {
    uint8_t image[256];
    uint32_t last = 0;
    for (uint32_t page = 1; page <= task.counts.pages; page++) {
        int answer = pagestore_file_inspect(file, page, image, sizeof image);
        if (answer == 0 && number_at(image + 4, 4) > last) last = number_at(image + 4, 4);
    }
    return last;
}

static void check_page(struct pagestore_file *file, uint32_t page) {
    uint8_t image[256];
    int blank = expected.number[page] == 0, answer = pagestore_file_inspect(file, page, image, sizeof image);
    if (answer != (blank ? 7 : 0)) wrong("inspect answered", answer);
    else if (!blank && !same_page(page, image + 8, number_at(image + 4, 4))) {
        if (number_at(image + 4, 4) < expected.number[page]) lost(1, "the page is old");
        else wrong("the text of page", page);
    }
    answer = pagestore_file_load(file, page, 1);
    if (answer != (blank ? 7 : 0)) wrong("load answered", answer);
    if (answer != 0) return;
    const uint32_t *report = pagestore_file_report(file);
    const uint8_t *text = pagestore_file_text(file, page);
    if (text == NULL || memcmp(text, expected.body[page], BODY) != 0) wrong("the frame's text of page", page);
    figures.repaired[report[0] % 6][report[1] % 4]++;
}

/* How many of the pending changes were stored. Under upkeep at most one is pending, and its page tells: one that
 * changed nothing counts as stored. */
static uint32_t decided(struct pagestore_file *file) {
    struct abstract_log was = expected;
    uint8_t image[256];
    if (!task.upkeep) return stored - expected.durable;
    if (expected.pending != 1) return 0;
    uint32_t page = expected.queue[0].page;
    log_force(&expected);
    int there = pagestore_file_inspect(file, page, image, sizeof image) == 0
                && memcmp(image + 8, expected.body[page], BODY) == 0;
    expected = was;
    return there ? 1 : 0;
}

/* Settles what was undecided, then looks at every page. */
static void check_pages(struct pagestore_file *file) {
    uint32_t pending = expected.pending, least = task.upkeep ? stored : expected.durable;
    stored = last_number(file);
    if (stored < least) {
        lost(least - stored, "acknowledged changes");
        return;
    }
    if (task.upkeep ? pending > 1 : stored > expected.durable + pending) {
        wrong("changes that nobody asked for", (long)stored);
        return;
    }
    uint32_t durable = decided(file);
    figures.undecided += pending;
    figures.undecided_durable += durable;
    while (durable-- > 0) log_force(&expected);
    log_cut(&expected);
    for (uint32_t page = 1; page <= task.counts.pages; page++) check_page(file, page);
}

static void verify(void) {
    struct pagestore_file *file, *second;
    int answer = pagestore_file_open(&file, path, 1 + random_below(16));
    if (answer != 0) {
        wrong("open answered", answer);
        return;
    }
    check_pages(file);
    if (random_below(8) == 0) {
        answer = pagestore_file_open(&second, path, 1);
        if (answer != -EWOULDBLOCK || second != NULL) wrong("a second open", answer);
        if (second != NULL) pagestore_file_close(second);
    }
    if (pagestore_file_close(file) != 0) wrong("close", errno);
}

/* ---- the rounds */

/* A cut, and the open and close that look at what it left: as many cuts as are provided for may come in a row. */
static void count_cuts(void) {
    cuts += 2;
    if (!task.upkeep || cuts + 2 <= CUTS || wanted) return;
    wanted = 1;
    figures.restless++;
}

static void one_round(void) {
    uint32_t before = stored / task.counts.records;
    run_child();
    cut_off(random_below(5) < 3);
    verify();
    count_cuts();
    if (random_below(4) == 0 && !wanted) {
        cut_off(1);
        figures.second_cuts++;
        verify();
        count_cuts();
    }
    if (ring) figures.turned += stored / task.counts.records - before;
    if (!wanted && random_below(2) == 0) damage();
}

static void print_figures(unsigned long seed) {
    static const char *kinds[] = {"heading", "page image", "backup image", "log record", "note"};
    static const char *classes[] = {"", "good", "behind", "stale", "failed", "ahead"};
    static const char *starts[] = {"", "own image", "backup", "format"};
    printf("files %lu, turns of a log %lu, files without room in the end %lu\n", figures.files, figures.turned,
           figures.locked);
    if (task.upkeep)
        printf("upkeep came to rest %lu times by %lu calls, at most %lu at once; files left after %d cuts without rest "
               "%lu\n", figures.rests, figures.calls, figures.most_calls, CUTS, figures.restless);
    printf("rounds that ended by SIGKILL at any moment %lu, at a chosen call %lu, by a failed call %lu, "
           "with one interrupted or short %lu, by themselves %lu; cut once more %lu\n", figures.killed,
           figures.planned, figures.failed, figures.interrupted, figures.ended, figures.second_cuts);
    printf("changes acknowledged %lu; undecided %lu, of them durable %lu\n", figures.durable, figures.undecided,
           figures.undecided_durable);
    for (int k = 0; k < KINDS; k++)
        printf("cuts within a store, %s: left old %lu, new %lu, torn %lu\n", kinds[k], harmed.cut[k][OLD],
               harmed.cut[k][NEW], harmed.cut[k][TORN]);
    printf("torn items that passed their check %lu; cuts left old to spare a ring's last image %lu\n",
           harmed.by_chance, harmed.spared);
    printf("images damaged: an earlier one %lu, random %lu, one byte %lu, erased %lu\n",
           harmed.damaged[EARLIER_IMAGE], harmed.damaged[RANDOM_BYTES], harmed.damaged[ONE_BYTE],
           harmed.damaged[ERASED]);
    for (int i = 4; i < 24; i++) {
        unsigned long many = figures.repaired[i / 4][i % 4];
        if (many > 0) printf("pages loaded: %s, from %s %lu\n", classes[i / 4], starts[i % 4], many);
    }
    printf("torture: %lu rounds, seed %lu: %lu lost, %lu wrong\n", round_number, seed, figures.lost, figures.wrong);
}

int main(int argc, char **argv) {
    task.upkeep = argc == 5 && strcmp(argv[4], "upkeep") == 0;
    int right = argc == 4 || task.upkeep;
    unsigned long rounds = right ? strtoul(argv[1], NULL, 10) : 0;
    unsigned long seed = right ? strtoul(argv[2], NULL, 10) : 0;
    char directory[256];
    if (rounds == 0) {
        fprintf(stderr, "usage: torture ROUNDS SEED DIRECTORY [upkeep]\n");
        return 2;
    }
    snprintf(directory, sizeof directory, "%s/torture.XXXXXX", argv[3]);
    must(mkdtemp(directory) != NULL, directory);
    snprintf(path, sizeof path, "%s/volume", directory);
    task.path = path;
    shared = new_disk();
    for (round_number = 1; round_number <= rounds; round_number++) {
        random_seed(seed * 1000003 + round_number);
        if (wanted || random_below(task.upkeep ? 400 : 20) == 0) new_file();
        one_round();
        fflush(stdout);
    }
    round_number--;
    unlink(path);
    rmdir(directory);
    print_figures(seed);
    return figures.lost + figures.wrong == 0 ? 0 : 1;
}

/* The stack that the C functions take: on a painted stack, the lowest byte that a call changes; and calls of inspection
 * on the smallest stack that a thread may have. Exits with 1 if a call takes more than PAGESTORE_STACK, or does not end
 * well. */
#define _GNU_SOURCE
#include "box.h"
#include "painted.h"

#include <limits.h>
#include <pthread.h>
#include <stdio.h>
#include <string.h>
#include <sys/wait.h>
#include <unistd.h>

enum { UNANSWERED = 99 };

/* ---- the calls: each kind in volumes from the smallest to the largest, whose chain has 1,024 records ---- */

static const struct counts SIZES[] = {
    {1, 0, 1, 0}, {2, 2, 4, 4}, {64, 0, 1, 0}, {1, 0, 1024, 0}, {64, 128, 256, 1024}, {64, 128, 1024, 1024},
};
enum kind { TORN, TORN_BACKUP, WHOLE_BACKUP, WHOLE, NO_PAGE, KINDS };
static const char *const NAMES[KINDS] = {
    "image torn", "backup torn too", "backup whole", "image whole", "no such page",
};

static uint8_t volume[PAGESTORE_VOLUME_MAX], buffer[PAGESTORE_IMAGE_SIZE], expected[PAGESTORE_IMAGE_SIZE];

/* Every function of the header that takes no state; all but inspection are tried on the largest volume. */
enum function {
    INSPECT, EXAMINE, FORECAST, LENGTH, WRITER, READER, PAGES, COMPARE, COUNTS, RECORD, NOTE_AT, MAKE, MAKE_FIRST,
    ROOM, SLOT, SIZE, FUNCTIONS,
};
static const char *const CALLED[FUNCTIONS] = {
    "inspect",       "examine", "forecast", "archive_length", "archive_write", "archive_read",
    "archive_pages", "compare", "counts",   "record",         "note_at",       "make",
    "make_first",    "room",    "slot",     "size",
};
static uint8_t archive[PAGESTORE_ARCHIVE_MAX], area[PAGESTORE_AREA_MAX];
static uint32_t numbers[PAGESTORE_FORECAST_SIZE];

struct call {
    size_t size;
    uint32_t page, wanted, answer;
    enum function function;
};

/* Notes of every number: written ones, or backups that go into slot 1 and slot 2 in turns. */
static void notes(struct counts c, int backups) {
    for (uint32_t n = 1; n <= c.notes; n++) {
        uint32_t lsn = n < c.records ? n : c.records;
        note(volume + note_at(c, n), n, c.pages, backups ? BACKED_UP : WRITTEN, backups ? 1 + (int)(n % 2) : 0, lsn);
    }
}

/* The call for the last page, whose chain is as long as the log. */
static struct call prepared(struct counts c, enum kind kind) {
    int backups = kind == TORN_BACKUP || kind == WHOLE_BACKUP;
    struct counts noted = {c.pages, c.slots, c.notes < c.records ? c.notes : c.records, c.notes};
    make(volume, c);
    chain(volume, c, c.pages);
    notes(c, backups && c.slots >= 2);
    if (kind == WHOLE_BACKUP && c.slots >= 2) chain_image(volume + slot_at(c, 1 + c.notes % 2), noted, c.pages);
    if (kind == WHOLE) chain_image(volume + page_at(c.pages), c, c.pages);
    chain_image(expected, c, c.pages);
    memset(buffer, 0xee, sizeof buffer);
    if (kind != NO_PAGE) return (struct call){size_of(c), c.pages, PAGESTORE_OK, UNANSWERED, INSPECT};
    memset(expected, 0xee, sizeof expected);
    return (struct call){size_of(c), 0, PAGESTORE_NO_SUCH_PAGE, UNANSWERED, INSPECT};
}

static __attribute__((noinline)) uint32_t called(const struct call *c) {
    switch (c->function) {
        case EXAMINE:
            return pagestore_examine(volume, c->size, c->page, buffer, sizeof buffer, numbers, PAGESTORE_REPORT_SIZE);
        case COUNTS: return pagestore_counts(volume, c->size, numbers, PAGESTORE_COUNTS_SIZE);
        case RECORD: return pagestore_record(volume, c->size, 1024, numbers, PAGESTORE_FIELDS_SIZE);
        case NOTE_AT: return pagestore_note_at(volume, c->size, 1024, numbers, PAGESTORE_FIELDS_SIZE);
        case SLOT: return pagestore_slot(volume, c->size, 128, numbers, PAGESTORE_FIELDS_SIZE);
        case SIZE: return pagestore_size(64, 128, 1024, 1024);
        case ROOM: return pagestore_room(volume, c->size, numbers, PAGESTORE_ROOM_SIZE);
        case MAKE: return pagestore_make(volume, c->size, 64, 128, 1024, 1024);
        case MAKE_FIRST: return pagestore_make_first(volume, c->size, 64, 128, 1024, 1024);
        case FORECAST: return pagestore_forecast(volume, c->size, numbers, PAGESTORE_FORECAST_SIZE);
        case LENGTH: return pagestore_archive_length(volume, c->size);
        case WRITER: return pagestore_archive_write(volume, c->size, archive, sizeof archive);
        case READER: return pagestore_archive_read(archive, sizeof archive, area, sizeof area);
        case PAGES: return pagestore_archive_pages(archive, sizeof archive);
        case COMPARE: return pagestore_compare(volume, c->size, volume, c->size, numbers, PAGESTORE_COMPARE_SIZE);
        default: return pagestore_inspect(volume, c->size, c->page, buffer, sizeof buffer);
    }
}

static __attribute__((noinline)) void run(void *c) { ((struct call *)c)->answer = called(c); }

static int right(const struct call *c) {
    return c->answer == c->wanted && memcmp(buffer, expected, sizeof buffer) == 0;
}

/* ---- on the smallest stack; in a process of its own, since a stack that is too small kills it ---- */

static void *call(void *given) {
    run(given);
    return NULL;
}

static int ends_on_smallest(struct call *c) {
    int status;
    pid_t child = fork();
    must(child >= 0, "fork");
    if (child == 0) {
        on_stack(stack_of(PTHREAD_STACK_MIN), PTHREAD_STACK_MIN, call, c);
        _exit(right(c) ? 0 : 1);
    }
    must(waitpid(child, &status, 0) == child, "waitpid");
    return WIFEXITED(status) && WEXITSTATUS(status) == 0;
}

/* Prints a line; whether all is well. */
static int check(struct counts n, enum kind kind) {
    struct call c = prepared(n, kind);
    size_t bytes = touched(run, &c);
    int answers = right(&c), small = bytes <= PAGESTORE_STACK;
    c = prepared(n, kind);
    int ends = ends_on_smallest(&c);
    printf("%s P %u, B %u, L %u, N %u, %s: %s; %zu bytes of stack, at most %u; on a stack of %ld: %s\n",
           answers && small && ends ? "ok    " : "FAILED", n.pages, n.slots, n.records, n.notes, NAMES[kind],
           answers ? "right" : "WRONG", bytes, PAGESTORE_STACK, (long)PTHREAD_STACK_MIN,
           ends ? "right" : "WRONG or killed");
    return answers && small && ends;
}

/* Another function on the largest volume, its log full: it tells the archive's length, its pages, which are 64, the
 * volume's size, or gives 0. */
static int check_other(enum function f) {
    struct call c = prepared(SIZES[sizeof SIZES / sizeof SIZES[0] - 1], TORN);
    c.function = f;
    c.wanted = f == LENGTH ? sizeof archive : f == PAGES ? 64 : f == SIZE ? sizeof volume : PAGESTORE_OK;
    size_t bytes = touched(run, &c);
    int well = c.answer == c.wanted && bytes <= PAGESTORE_STACK;
    printf("%s %s: %zu bytes of stack, at most %u\n", well ? "ok    " : "FAILED", CALLED[f], bytes, PAGESTORE_STACK);
    return well;
}

/* ---- the calls on the state, in the largest volume with 16 frames ---- */

static struct box box;
static struct asked asked;
static uint32_t answer;

static __attribute__((noinline)) void on_state(void *given) {
    const struct asked *a = given;
    answer = a ? box_called(&box, *a) : box_restarted(&box);
}

/* Prints a line; whether the call answers so and keeps to its stack. The call is made twice, for two colours: the
 * store is put back before each as it was `before`. */
static struct box before;

static __attribute__((noinline)) void on_before(void *given) {
    box = before;
    on_state(given);
}

static int check_state(const char *name, const struct asked *a, uint32_t wanted) {
    before = box;
    size_t bytes = touched(on_before, (void *)a);
    int well = answer == wanted && bytes <= PAGESTORE_STATE_STACK;
    printf("%s %s: %u; %zu bytes of stack, at most %u\n", well ? "ok    " : "FAILED", name, (unsigned)answer, bytes,
           PAGESTORE_STATE_STACK);
    return well;
}

static __attribute__((noinline)) void on_images(void *given) {
    const struct box *x = given;
    answer = pagestore_failing(x->volume, x->volume_len, x->state, x->state_len);
}

/* No image of a volume that was just made passes: a line as above. */
static int check_failing(void) {
    size_t bytes = touched(on_images, &box);
    int well = answer == PAGESTORE_PAGES_MAX + PAGESTORE_SLOTS_MAX && bytes <= PAGESTORE_STATE_STACK;
    printf("%s failing: %u; %zu bytes of stack, at most %u\n", well ? "ok    " : "FAILED", (unsigned)answer, bytes,
           PAGESTORE_STATE_STACK);
    return well;
}

static int check_calls(int first) {
    static const char bytes[44];
    static const struct asked calls[] = {
        {.call = BEGIN, .page = 64, .frame = 16, .fill = 7}, {.call = BEGIN, .page = 1, .frame = 1, .fill = 256},
        {.call = CHANGE, .page = 64, .kind = PAGESTORE_SLIDE, .length = 44, .payload = bytes, .payload_len = 44},
        {.call = FORCE}, {.call = FORCE}, {.call = WRITE, .page = 64}, {.call = STORE_NOTE},
        {.call = BACKUP, .page = 64, .slot = 128}, {.call = STORE_NOTE}, {.call = RELEASE, .page = 64},
        {.call = LOAD, .page = 64, .frame = 2}, {.call = START}, {.call = RESTAMP}, {.call = RESTAMP}, {.call = FINISH},
    };
    static const char *const names[] = {
        "begin", "begin, fill 256", "change", "force", "force", "write", "note", "backup",
        "note", "release", "load", "start", "restamp", "restamp", "finish",
    };
    int failures = 0;
    box_made(&box, SIZES[sizeof SIZES / sizeof SIZES[0] - 1], 16, first);
    failures += !check_state("restart", NULL, PAGESTORE_OK) + !check_failing();
    for (size_t i = 0; i < sizeof calls / sizeof calls[0] - (first ? 0 : 4); i++) {
        asked = calls[i];
        failures += !check_state(names[i], &asked, asked.fill == 256 ? PAGESTORE_BAD_CHANGE : PAGESTORE_OK);
    }
    return failures;
}

/* Upkeep on a small ring: with nothing to do, with a call to make, with a page to be loaded, whose repair it tries. */
static uint32_t advice[PAGESTORE_UPKEEP_SIZE];

static __attribute__((noinline)) void advised(void *given) {
    (void)given;
    answer = pagestore_upkeep(box.volume, box.volume_len, box.memory, box.memory_len, box.state, box.state_len, 2,
                              advice, PAGESTORE_UPKEEP_SIZE);
}

static int check_advice(uint32_t kind, uint32_t number) {
    size_t bytes = touched(advised, NULL);
    int right = answer == PAGESTORE_OK && advice[PAGESTORE_UPKEEP_KIND] == kind &&
                advice[PAGESTORE_UPKEEP_NUMBER] == number;
    int well = right && bytes <= PAGESTORE_STATE_STACK;
    printf("%s upkeep, call %u: %zu bytes of stack, at most %u\n", well ? "ok    " : "FAILED", (unsigned)number, bytes,
           PAGESTORE_STATE_STACK);
    return well;
}

static int check_upkeep(void) {
    static const struct asked calls[] = {
        {.call = FORCE}, {.call = CHANGE, .page = 1, .kind = PAGESTORE_FORMAT, .fill = 1}, {.call = FORCE},
        {.call = CHANGE, .page = 1, .kind = PAGESTORE_FORMAT, .fill = 2}, {.call = FORCE},
    };
    int failures = 0;
    box_made(&box, (struct counts){1, 2, 4, 4}, 16, 0);
    failures += !check_advice(PAGESTORE_UPKEEP_IDLE, 0);
    failures += box_called(&box, (struct asked){.call = BEGIN, .page = 1, .frame = 1}) != 0;
    failures += !check_advice(PAGESTORE_UPKEEP_CALL, PAGESTORE_CALL_FORCE);
    for (size_t i = 0; i < sizeof calls / sizeof calls[0]; i++) failures += box_called(&box, calls[i]) != 0;
    failures += !check_advice(PAGESTORE_UPKEEP_CALL, PAGESTORE_CALL_BACKUP);
    failures += box_called(&box, (struct asked){.call = RELEASE, .page = 1}) != 0;
    failures += !check_advice(PAGESTORE_UPKEEP_CALL, PAGESTORE_CALL_LOAD);
    return failures;
}

int main(void) {
    int failures = check_calls(1) + check_calls(0) + check_upkeep();
    for (size_t i = 0; i < sizeof SIZES / sizeof SIZES[0]; i++)
        for (int kind = 0; kind < KINDS; kind++) failures += !check(SIZES[i], (enum kind)kind);
    for (int f = EXAMINE; f < FUNCTIONS; f++) failures += !check_other((enum function)f);
    printf("%s\n", failures ? "some calls FAILED" : "every call keeps to its stack");
    return failures ? 1 : 0;
}

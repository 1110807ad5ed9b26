/* What the tool reads: a file or standard input, whole; and what the library says of it. */
#define _POSIX_C_SOURCE 200809L
#include "tool.h"

#include <errno.h>
#include <fcntl.h>
#include <stdlib.h>
#include <string.h>
#include <sys/stat.h>
#include <unistd.h>

/* Reads until the end or until the buffer is full. */
static int fill(struct input *in, int from) {
    in->length = 0;
    while (in->length < sizeof in->bytes) {
        ssize_t n = read(from, in->bytes + in->length, sizeof in->bytes - in->length);
        if (n == 0) {
            return ALL_WELL;
        }
        if (n < 0 && errno != EINTR) {
            return say_error(in->name);
        }
        in->length += n > 0 ? (size_t)n : 0;
    }
    return say(in->name, "longer than the largest volume (131,092 bytes)");
}

int read_input(struct input *in, const char *name) {
    bool standard = strcmp(name, "-") == 0;
    struct stat about;
    in->name = standard ? "standard input" : name;
    int from = standard ? STDIN_FILENO : open(name, O_RDONLY | O_CLOEXEC);
    if (from < 0) {
        return say_error(name);
    }
    int status = SYSTEM_FAILED;
    if (fstat(from, &about) < 0) {
        say_error(in->name);
    } else if (S_ISDIR(about.st_mode)) {
        say(in->name, "a directory, and not a file");
    } else {
        in->mode = about.st_mode & 0666;
        status = fill(in, from);
    }
    if (!standard) {
        close(from); /* it was only read: nothing can be lost here */
    }
    return status == ALL_WELL && in->length == 0 ? say(in->name, "empty: neither a volume nor an archive") : status;
}

int open_volume(struct input *in, struct geometry *g, const char *name) {
    uint32_t c[PAGESTORE_COUNTS_SIZE];
    int status = read_input(in, name);
    if (status != ALL_WELL) {
        return status;
    }
    uint32_t answer = pagestore_counts(VOLUME(in), c, PAGESTORE_COUNTS_SIZE);
    if (answer != PAGESTORE_OK) {
        return say_refused(in->name, answer);
    }
    *g = (struct geometry){c[PAGESTORE_COUNTS_HEADING], c[PAGESTORE_COUNTS_PAGES], c[PAGESTORE_COUNTS_SLOTS],
                           c[PAGESTORE_COUNTS_RECORDS], c[PAGESTORE_COUNTS_NOTES]};
    return ALL_WELL;
}

int restart(struct store *s, const struct input *in) {
    memset(s, 0, sizeof *s);
    uint32_t answer = pagestore_restart(VOLUME(in), MEMORY(s), STATE(s));
    return answer == PAGESTORE_OK ? ALL_WELL : say_refused(in->name, answer);
}

int open_store(struct input *in, struct geometry *g, struct store *s, const char *name) {
    int status = open_volume(in, g, name);
    return status == ALL_WELL ? restart(s, in) : status;
}

/* Decimal digits and nothing else. */
bool to_number(const char *word, uint32_t *number) {
    char *end = NULL;
    if (word[0] < '0' || word[0] > '9') {
        return false;
    }
    errno = 0;
    unsigned long long n = strtoull(word, &end, 10);
    *number = (uint32_t)n;
    return errno == 0 && *end == '\0' && n <= UINT32_MAX;
}

struct page examine(const struct input *in, uint32_t page) {
    uint32_t report[PAGESTORE_REPORT_SIZE] = {0};
    struct page p = {0};
    p.answer = pagestore_examine(VOLUME(in), page, p.image, sizeof p.image, report, PAGESTORE_REPORT_SIZE);
    p.class = report[PAGESTORE_REPORT_CLASS];
    p.start = report[PAGESTORE_REPORT_START];
    p.count = report[PAGESTORE_REPORT_COUNT];
    return p;
}

/* Nothing is to be mended: the page's image is Good, or the page is blank. */
bool is_good(const struct page *p) {
    return p->answer == PAGESTORE_BLANK_PAGE || (p->answer == PAGESTORE_OK && p->class == PAGESTORE_GOOD);
}

struct record record_in(const struct input *in, uint32_t slot) {
    uint32_t f[PAGESTORE_FIELDS_SIZE] = {0};
    pagestore_record(VOLUME(in), slot, f, PAGESTORE_FIELDS_SIZE);
    return (struct record){f[0], f[1], f[2], f[3], f[4], f[5], f[6], f[7]};
}

struct note note_in(const struct input *in, uint32_t slot) {
    uint32_t f[PAGESTORE_FIELDS_SIZE] = {0};
    pagestore_note_at(VOLUME(in), slot, f, PAGESTORE_FIELDS_SIZE);
    return (struct note){f[0], f[1], f[2], f[3], f[4], f[5]};
}

/* Zeros for a page that is none. */
struct entry index_entry(const struct store *s, uint32_t page) {
    if (page < 1 || page > PAGESTORE_PAGES_MAX) {
        return (struct entry){0, 0, 0};
    }
    const uint32_t *e = s->state + PAGESTORE_STATE_PAGES + 5 * (page - 1);
    return (struct entry){e[2], e[3], e[4]};
}

/* The 44 bytes of a record's payload (docs/FORMAT.md, chapter 1). */
const uint8_t *payload_in(const struct input *in, const struct geometry *g, uint32_t slot) {
    return in->bytes + 16 + PAGESTORE_IMAGE_SIZE * (g->pages + g->slots) + 64 * (slot - 1) + 16;
}

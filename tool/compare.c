/* compare: the mirror's log beside ours. */
#include "tool.h"

static void print_pages(const uint32_t *report, bool json) {
    const char *before = "";
    for (uint32_t page = 1; page <= PAGESTORE_PAGES_MAX; page++) {
        if (report[PAGESTORE_COMPARE_PAGES + page - 1] != 0) {
            printf(json ? "%s%u" : "%s%u\n", before, page);
            before = json ? ", " : "";
        }
    }
}

/* Says which of the two is refused, and why; no archive is asked for: one that could be written has another length. */
static int whole_history(const struct input *in) {
    uint8_t none[1];
    uint32_t answer = pagestore_archive_write(VOLUME(in), none, 0);
    return answer == PAGESTORE_BAD_LENGTH ? ALL_WELL : say_refused(in->name, answer);
}

static int open_history(struct input *in, const char *name) {
    struct geometry g;
    int status = open_volume(in, &g, name);
    return status == ALL_WELL ? whole_history(in) : status;
}

int run_compare(const struct request *r) {
    static struct input first, second;
    static const char *const words[] = {"?", "AGREE", "FIRST LACKS", "SECOND LACKS", "DIFFERS"};
    uint32_t report[PAGESTORE_COMPARE_SIZE];
    int status = open_history(&first, r->words[0]);
    status = status == ALL_WELL ? open_history(&second, r->words[1]) : status;
    if (status != ALL_WELL) {
        return status;
    }
    uint32_t answer = pagestore_compare(VOLUME(&first), VOLUME(&second), report, PAGESTORE_COMPARE_SIZE);
    if (answer != PAGESTORE_OK) {
        return say_refused(first.name, answer);
    }
    uint32_t kind = report[PAGESTORE_COMPARE_KIND], number = report[PAGESTORE_COMPARE_NUMBER];
    const char *word = words[kind <= PAGESTORE_LOGS_DIFFER ? kind : 0];
    if (r->json) {
        printf("{\"answer\": \"%s\", \"number\": %u, \"pages\": [", word, number);
        print_pages(report, true);
        printf("]}\n");
    } else {
        printf(kind == PAGESTORE_LOGS_AGREE ? "%s\n" : "%s %u\n", word, number);
        print_pages(report, false);
    }
    return kind == PAGESTORE_LOGS_AGREE ? ALL_WELL : FOUND;
}

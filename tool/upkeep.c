/* upkeep: which call to make next so that a box never locks; --do makes the calls on the file itself. */
#include "pagestore_file.h"
#include "tool.h"

#include <errno.h>
#include <string.h>

/* The call in words. */
static void say_call(char words[ADVICE_SIZE], const uint32_t *u) {
    static const char *const names[] = {"load", "change", "force", "write", "back up", "note"};
    uint32_t number = u[PAGESTORE_UPKEEP_NUMBER];
    bool known = number >= PAGESTORE_CALL_LOAD && number <= PAGESTORE_CALL_NOTE;
    const char *name = known ? names[number - PAGESTORE_CALL_LOAD] : "?";
    int n = snprintf(words, ADVICE_SIZE, "%s", name);
    if (u[PAGESTORE_UPKEEP_PAGE] != 0) {
        n += snprintf(words + n, ADVICE_SIZE - (size_t)n, " page %u", u[PAGESTORE_UPKEEP_PAGE]);
    }
    if (number == PAGESTORE_CALL_BACKUP) {
        n += snprintf(words + n, ADVICE_SIZE - (size_t)n, " in slot %u", u[PAGESTORE_UPKEEP_PLACE]);
    }
    snprintf(words + n, ADVICE_SIZE - (size_t)n, " next; upkeep --do makes the calls");
}

/* What upkeep says of a restarted volume; FOUND where there is something to do. */
static int ask(char words[ADVICE_SIZE], const struct input *in, const struct store *s, uint32_t *kind) {
    uint32_t u[PAGESTORE_UPKEEP_SIZE] = {0};
    uint32_t answer = pagestore_upkeep(VOLUME(in), MEMORY(s), STATE(s), 1, u, PAGESTORE_UPKEEP_SIZE);
    if (answer != PAGESTORE_OK) {
        return say_refused(in->name, answer);
    }
    *kind = u[PAGESTORE_UPKEEP_KIND];
    if (*kind == PAGESTORE_UPKEEP_IDLE) {
        snprintf(words, ADVICE_SIZE, "nothing to do");
    } else if (*kind == PAGESTORE_UPKEEP_STUCK) {
        snprintf(words, ADVICE_SIZE, "stuck at page %u: it is lost, or the box is locked", u[PAGESTORE_UPKEEP_PAGE]);
    } else {
        say_call(words, u);
    }
    return *kind == PAGESTORE_UPKEEP_IDLE ? ALL_WELL : FOUND;
}

int advise(char words[ADVICE_SIZE], const struct input *in, const struct store *s) {
    uint32_t kind = PAGESTORE_UPKEEP_IDLE;
    int status = ask(words, in, s, &kind);
    return status == FOUND && kind != PAGESTORE_UPKEEP_STUCK ? ALL_WELL : status;
}

static void tell(const struct request *r, const char *advice, uint32_t calls) {
    if (r->json) {
        printf("{\"advice\": ");
        print_json_name(stdout, advice);
        printf(", \"calls\": %u}\n", calls);
    } else if (r->perform) {
        printf("%s; %u calls were made\n", advice, calls);
    } else {
        printf("%s\n", advice);
    }
}

/* A result of the layer for files: a refusal, or a negative errno. */
static int file_failed(const char *name, int result) {
    errno = result < 0 ? -result : 0;
    return result < 0 ? say_error(name) : say_refused(name, (uint32_t)result);
}

/* The calls, on the file itself. */
static int perform(const struct request *r) {
    struct pagestore_file *file = NULL;
    const char *name = r->words[0];
    char words[ADVICE_SIZE] = "nothing more to do";
    int result = pagestore_file_open(&file, name, TOOL_FRAMES);
    if (result != 0) {
        return file_failed(name, result);
    }
    result = pagestore_file_upkeep(file, 1);
    const uint32_t *report = pagestore_file_report(file);
    uint32_t calls = report[PAGESTORE_REPORT_COUNT], page = report[PAGESTORE_REPORT_PAGE];
    int closed = pagestore_file_close(file);
    bool stuck = result == (int)PAGESTORE_PAGE_LOST;
    if ((result != 0 && !stuck && result != -EAGAIN) || closed != 0) {
        return file_failed(name, result != 0 ? result : closed);
    }
    if (stuck) {
        snprintf(words, sizeof words, "stuck at page %u: it is lost, or the box is locked", page);
    } else if (result == -EAGAIN) {
        snprintf(words, sizeof words, "not at rest: the volume has too little room");
    }
    tell(r, words, calls);
    return result == 0 ? ALL_WELL : FOUND;
}

int run_upkeep(const struct request *r) {
    static struct input in;
    struct geometry g;
    struct store s;
    uint32_t kind;
    char words[ADVICE_SIZE] = "";
    if (r->perform) {
        return perform(r);
    }
    int status = open_store(&in, &g, &s, r->words[0]);
    status = status == ALL_WELL ? ask(words, &in, &s, &kind) : status;
    if (status <= FOUND) {
        tell(r, words, 0);
    }
    return status;
}

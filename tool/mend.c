/* repair, convert: a volume mended or carried over, by the store's own calls and never by poking bytes. */
#include "tool.h"

/* Loads a page, writes it and stores the note; the first refusal, or PAGESTORE_OK. */
static uint32_t mend(struct input *in, struct store *s, uint32_t page) {
    uint32_t answer = pagestore_load(VOLUME(in), MEMORY(s), STATE(s), page, 1, REPORT(s));
    if (answer == PAGESTORE_OK) {
        answer = pagestore_write(VOLUME(in), MEMORY(s), STATE(s), page, REPORT(s));
    }
    if (answer == PAGESTORE_OK) {
        answer = pagestore_note(VOLUME(in), MEMORY(s), STATE(s), REPORT(s));
    }
    return answer;
}

/* What was found of a page, and the refusal where it could not be mended. */
static void tell_mended(const struct request *r, uint32_t page, const char *was, uint32_t answer, bool first) {
    FILE *to = told_on(r);
    if (r->json) {
        fprintf(to, "%s{\"page\": %u, \"was\": \"%s\", \"refused\": %u}", first ? "" : ", ", page, was, answer);
    } else if (answer == PAGESTORE_OK) {
        fprintf(to, "page %u was %s, is GOOD\n", page, was);
    } else {
        fprintf(to, "page %u is %s still, refused %u: %s\n", page, was, answer, pagestore_text(answer));
    }
}

/* Mends every page that is not Good; FOUND where one could not be. */
static int mend_pages(const struct request *r, struct input *in, struct store *s, const struct geometry *g) {
    int status = ALL_WELL;
    bool first = true;
    for (uint32_t page = 1; page <= g->pages; page++) {
        struct page p = examine(in, page);
        if (is_good(&p)) {
            continue;
        }
        uint32_t answer = mend(in, s, page);
        tell_mended(r, page, p.answer == PAGESTORE_OK ? class_word(p.class) : "LOST", answer, first);
        status = answer == PAGESTORE_OK ? status : FOUND;
        first = false;
    }
    if (first && !r->json) {
        fprintf(told_on(r), "every page was GOOD: the copy is the same\n");
    }
    return status;
}

int run_repair(const struct request *r) {
    static struct input in;
    struct geometry g;
    struct store s;
    int status = out_is_free(r);
    status = status == ALL_WELL ? open_store(&in, &g, &s, r->words[0]) : status;
    if (status != ALL_WELL) {
        return status;
    }
    fputs(r->json ? "{\"pages\": [" : "", told_on(r));
    int found = mend_pages(r, &in, &s, &g);
    fputs(r->json ? "]}\n" : "", told_on(r));
    status = write_out(r, in.mode, in.bytes, in.length);
    return status == ALL_WELL ? found : status;
}

/* Restamps until no image is left; how many they were. */
static uint32_t restamp_all(struct input *in, struct store *s) {
    uint32_t count = 0, most = PAGESTORE_PAGES_MAX + PAGESTORE_SLOTS_MAX;
    while (count < most && pagestore_restamp(VOLUME(in), MEMORY(s), STATE(s), REPORT(s)) == PAGESTORE_OK) {
        count++;
    }
    return count;
}

/* Carries the volume over; one whose carrying was cut short is carried on. PAGESTORE_OK, or the refusal. */
static uint32_t carry(struct input *in, const struct geometry *g, struct store *s, uint32_t *restamped) {
    uint32_t answer = PAGESTORE_OK;
    if (g->heading != PAGESTORE_HEADING_CARRY) {
        answer = pagestore_start_carry(VOLUME(in), MEMORY(s), STATE(s), REPORT(s));
    }
    if (answer != PAGESTORE_OK) {
        return answer;
    }
    *restamped = restamp_all(in, s);
    return pagestore_finish_carry(VOLUME(in), MEMORY(s), STATE(s), REPORT(s));
}

static void tell_converted(const struct request *r, uint32_t restamped, uint32_t failing) {
    FILE *to = told_on(r);
    if (r->json) {
        fprintf(to, "{\"restamped\": %u, \"failing\": %u}\n", restamped, failing);
        return;
    }
    fprintf(to, "RESTAMPED %u\nFAILING %u\n", restamped, failing);
    if (failing > 0) {
        fprintf(to,
                "images that fail were damaged or never written, and stay so: scan names them, repair mends them\n");
    }
}

int run_convert(const struct request *r) {
    static struct input in;
    struct geometry g;
    struct store s;
    uint32_t restamped = 0;
    int status = out_is_free(r);
    status = status == ALL_WELL ? open_store(&in, &g, &s, r->words[0]) : status;
    if (status != ALL_WELL) {
        return status;
    }
    uint32_t answer = carry(&in, &g, &s, &restamped);
    if (answer != PAGESTORE_OK) {
        say_refused(in.name, answer);
        return g.heading == PAGESTORE_HEADING_SECOND ? say(in.name, "it has today's heading already") : NOT_DONE;
    }
    status = write_out(r, in.mode, in.bytes, in.length);
    if (status == ALL_WELL) {
        tell_converted(r, restamped, pagestore_failing(VOLUME(&in), STATE(&s)));
    }
    return status;
}

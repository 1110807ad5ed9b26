/* scan, forecast: what each page is worth, and how much room there is. */
#include "tool.h"

/* How many pages are not as they should be. */
struct tally {
    uint32_t mendable, lost;
};

static void count_page(struct tally *t, const struct page *p) {
    if (!is_good(p)) {
        t->mendable += p->answer == PAGESTORE_OK;
        t->lost += p->answer != PAGESTORE_OK;
    }
}

static void print_page(uint32_t page, const struct page *p) {
    if (p->answer == PAGESTORE_OK) {
        printf("%u %s %s %u\n", page, class_word(p->class), start_word(p->start), p->count);
    } else if (p->answer == PAGESTORE_BLANK_PAGE) {
        printf("%u BLANK\n", page);
    } else {
        printf("%u REFUSED %u\n", page, p->answer);
    }
}

static void print_page_json(uint32_t page, const struct page *p) {
    printf("%s{\"page\": %u, ", page > 1 ? ", " : "", page);
    if (p->answer == PAGESTORE_OK) {
        printf("\"class\": \"%s\", \"start\": \"%s\", \"count\": %u}", class_word(p->class), start_word(p->start),
               p->count);
    } else if (p->answer == PAGESTORE_BLANK_PAGE) {
        printf("\"class\": \"BLANK\"}");
    } else {
        printf("\"refused\": %u}", p->answer);
    }
}

/* What the classes mean for whoever reads the pages. */
static void print_tally(const struct tally *t) {
    const char *pages = t->mendable == 1 ? "page is" : "pages are";
    if (t->lost > 0) {
        printf("text: lost on %u %s; safe on the others (refused %u: %s)\n", t->lost, t->lost == 1 ? "page" : "pages",
               PAGESTORE_PAGE_LOST, pagestore_text(PAGESTORE_PAGE_LOST));
    } else {
        printf("text: safe on every page\n");
    }
    if (t->mendable > 0) {
        printf("disk: %u %s not GOOD there, and rebuilt at each reading; repair mends that\n", t->mendable, pages);
    } else {
        printf("disk: nothing to mend\n");
    }
}

/* What stands in the way where no page does, with `count` more of `slots` to come. */
static const char *way_on(const struct geometry *g, uint32_t count, uint32_t slots) {
    if (slots == 0) {
        return "none: the volume has no slots for them";
    }
    if (g->records < 2) {
        return "none: with one slot for the log, each is used once";
    }
    if (g->heading != PAGESTORE_HEADING_SECOND) {
        return "none until the volume is converted";
    }
    /* a ring: a whole turn is free, or its numbers have run out */
    return count == slots ? NULL : "none: its numbers have run out";
}

/* How many more; then what has to be done first, to the page in the way or to those of a whole turn. */
static void say_room(char *words, const char *what, const uint32_t room[2], uint32_t slots, const char *first,
                     const struct geometry *g) {
    int n = snprintf(words, ROOM_WORDS_SIZE, "%s: room for %u more; then ", what, room[0]);
    size_t left = ROOM_WORDS_SIZE - (size_t)n;
    const char *way = way_on(g, room[0], slots);
    if (room[1] != 0) {
        snprintf(words + n, left, "page %u has to be %s first", room[1], first);
    } else if (way != NULL) {
        snprintf(words + n, left, "%s", way);
    } else {
        snprintf(words + n, left, "pages have to be %s first", first);
    }
}

static void find_room(uint32_t room[PAGESTORE_ROOM_SIZE], const struct input *in) {
    pagestore_room(VOLUME(in), room, PAGESTORE_ROOM_SIZE); /* never refused where a restart was not */
}

int room_words(char words[2][ROOM_WORDS_SIZE], const struct input *in, const struct geometry *g) {
    uint32_t room[PAGESTORE_ROOM_SIZE] = {0};
    find_room(room, in);
    say_room(words[0], "log", room, g->records, "backed up", g);
    say_room(words[1], "notes", room + 2, g->notes, "written or backed up again", g);
    return room[0] == 0 || (room[2] == 0 && g->notes > 0) ? FOUND : ALL_WELL;
}

static void print_room_json(const struct input *in) {
    uint32_t room[PAGESTORE_ROOM_SIZE] = {0};
    find_room(room, in);
    printf("\"room\": {\"records\": %u, \"recordPage\": %u, \"notes\": %u, \"notePage\": %u}", room[0], room[1],
           room[2], room[3]);
}

/* The room that is left; FOUND where there is none. */
static int print_outlook(const struct input *in, const struct geometry *g, const struct store *s, bool json) {
    char room[2][ROOM_WORDS_SIZE], advice[ADVICE_SIZE] = "";
    int status = room_words(room, in, g), upkeep = advise(advice, in, s);
    if (json) {
        print_room_json(in);
        printf(", \"upkeep\": ");
        print_json_name(stdout, advice);
        printf("}\n");
    } else {
        printf("%s\n%s\nupkeep: %s\n", room[0], room[1], advice);
    }
    return upkeep > status ? upkeep : status;
}

int run_scan(const struct request *r) {
    static struct input in;
    struct geometry g;
    struct store s;
    struct tally t = {0, 0};
    int status = open_store(&in, &g, &s, r->words[0]);
    if (status != ALL_WELL) {
        return status;
    }
    if (r->json) {
        printf("{\"file\": ");
        print_json_name(stdout, in.name);
        printf(", \"heading\": \"%s\", \"pages\": [", heading_word(g.heading));
    }
    for (uint32_t page = 1; page <= g.pages; page++) {
        struct page p = examine(&in, page);
        count_page(&t, &p);
        (r->json ? print_page_json : print_page)(page, &p);
    }
    if (r->json) {
        printf("], \"mendable\": %u, \"lost\": %u, ", t.mendable, t.lost);
    } else {
        print_tally(&t);
    }
    int outlook = print_outlook(&in, &g, &s, r->json);
    return outlook != ALL_WELL ? outlook : t.mendable + t.lost > 0 ? FOUND : ALL_WELL;
}

static void print_figure(uint32_t page, uint32_t refusal, uint32_t count, bool blank) {
    if (refusal != PAGESTORE_OK) {
        printf("%u REFUSED %u\n", page, refusal);
    } else if (blank) {
        printf("%u BLANK\n", page);
    } else {
        printf("%u %u\n", page, count);
    }
}

static void print_figure_json(uint32_t page, uint32_t refusal, uint32_t count, bool blank) {
    printf("%s{\"page\": %u, ", page > 1 ? ", " : "", page);
    if (refusal != PAGESTORE_OK) {
        printf("\"refused\": %u}", refusal);
    } else if (blank) {
        printf("\"blank\": true}");
    } else {
        printf("\"count\": %u}", count);
    }
}

int run_forecast(const struct request *r) {
    static struct input in;
    struct geometry g;
    uint32_t figures[PAGESTORE_FORECAST_SIZE], lost = 0;
    int status = open_volume(&in, &g, r->words[0]);
    if (status != ALL_WELL) {
        return status;
    }
    uint32_t answer = pagestore_forecast(VOLUME(&in), figures, PAGESTORE_FORECAST_SIZE);
    if (answer != PAGESTORE_OK) {
        return say_refused(in.name, answer);
    }
    printf(r->json ? "{\"pages\": [" : "");
    for (uint32_t page = 1; page <= g.pages; page++) {
        uint32_t refusal = figures[2 * (page - 1)], count = figures[2 * (page - 1) + 1];
        bool blank = refusal == 0 && count == 0 && examine(&in, page).answer == PAGESTORE_BLANK_PAGE;
        lost += refusal != PAGESTORE_OK;
        (r->json ? print_figure_json : print_figure)(page, refusal, count, blank);
    }
    printf(r->json ? "]}\n" : "");
    if (lost > 0 && !r->json) {
        printf("refused %u: %s\n", PAGESTORE_PAGE_LOST, pagestore_text(PAGESTORE_PAGE_LOST));
    }
    return lost > 0 ? FOUND : ALL_WELL;
}

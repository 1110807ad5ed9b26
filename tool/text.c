/* show, history: what a page says, and how it came to say it. */
#include "tool.h"

static void print_hex(const uint8_t *body) {
    for (size_t i = 0; i < PAGESTORE_BODY_SIZE; i++) {
        printf("%02x%c", body[i], i % 16 == 15 || i + 1 == PAGESTORE_BODY_SIZE ? '\n' : ' ');
    }
}

static void print_body(const struct request *r, uint32_t page, const uint8_t *body) {
    size_t length = text_length(body, PAGESTORE_BODY_SIZE);
    if (r->json) {
        printf("{\"page\": %u, \"text\": ", page);
        print_json_string(stdout, body, length);
        printf("}\n");
    } else if (r->raw) {
        fwrite(body, 1, PAGESTORE_BODY_SIZE, stdout);
    } else if (r->hex) {
        print_hex(body);
    } else {
        print_text(stdout, body, length);
        printf(length > 0 && body[length - 1] == '\n' ? "" : "\n");
    }
}

int run_show(const struct request *r) {
    static struct input in;
    struct geometry g;
    uint32_t page;
    uint8_t image[PAGESTORE_IMAGE_SIZE];
    if (!to_number(r->words[1], &page)) {
        return say(r->words[1], "not a page number");
    }
    if (r->raw + r->hex + r->json > 1) {
        return say("show", "--raw, --hex and --json: one at a time");
    }
    int status = open_volume(&in, &g, r->words[0]);
    if (status != ALL_WELL) {
        return status;
    }
    uint32_t answer = pagestore_inspect(VOLUME(&in), page, image, sizeof image);
    if (answer != PAGESTORE_OK) {
        return say_refused(in.name, answer);
    }
    print_body(r, page, image + PAGESTORE_IMAGE_BODY);
    return ALL_WELL;
}

/* A change in words: FORMAT and its fill; PUT or SLIDE with the places of its first and last byte, and its text. */
void print_change(const struct record *x, const uint8_t *payload) {
    printf("%s", kind_word(x->kind));
    if (x->kind == PAGESTORE_PUT || x->kind == PAGESTORE_SLIDE) {
        printf(" %u to %u: ", x->offset, x->offset + x->length - 1);
        print_line(stdout, payload, x->length <= PAGESTORE_PAYLOAD_MAX ? x->length : PAGESTORE_PAYLOAD_MAX);
    } else {
        printf(" fill %u", x->fill);
    }
    printf("\n");
}

static void print_change_json(const struct record *x, const uint8_t *payload) {
    printf("{\"number\": %u, \"kind\": \"%s\", ", x->number, kind_word(x->kind));
    if (x->kind == PAGESTORE_FORMAT) {
        printf("\"fill\": %u}", x->fill);
        return;
    }
    printf("\"offset\": %u, \"length\": %u, \"text\": ", x->offset, x->length);
    print_json_string(stdout, payload, x->length <= PAGESTORE_PAYLOAD_MAX ? x->length : PAGESTORE_PAYLOAD_MAX);
    printf("}");
}

/* The slots from the one behind the last record on, once around: records in the order of their numbers. */
static void print_changes(const struct input *in, const struct geometry *g, uint32_t durable, uint32_t page,
                          bool json) {
    const char *before = "";
    for (uint32_t i = 0; i < g->records; i++) {
        uint32_t slot = (durable + i) % g->records + 1;
        struct record x = record_in(in, slot);
        if (x.is != WHOLE_SLOT || x.page != page) {
            continue;
        }
        if (json) {
            printf("%s", before);
            print_change_json(&x, payload_in(in, g, slot));
            before = ", ";
        } else {
            printf("%u ", x.number);
            print_change(&x, payload_in(in, g, slot));
        }
    }
}

int run_history(const struct request *r) {
    static struct input in;
    struct geometry g;
    struct store s;
    uint32_t page;
    if (!to_number(r->words[1], &page)) {
        return say(r->words[1], "not a page number");
    }
    int status = open_store(&in, &g, &s, r->words[0]);
    if (status == ALL_WELL && (page < 1 || page > g.pages)) {
        status = say_refused(in.name, PAGESTORE_NO_SUCH_PAGE);
    }
    if (status != ALL_WELL) {
        return status;
    }
    printf(r->json ? "{\"page\": %u, \"changes\": [" : "", page);
    print_changes(&in, &g, s.state[PAGESTORE_STATE_DURABLE], page, r->json);
    printf(r->json ? "]}\n" : "");
    return ALL_WELL;
}

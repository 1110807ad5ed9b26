/* new: an empty volume. */
#include "tool.h"

/* A file of its owner's alone, as the store in a file makes it. */
#define OWNERS_ALONE 0600

int run_new(const struct request *r) {
    static uint8_t volume[PAGESTORE_VOLUME_MAX];
    struct request to = *r;
    const uint32_t *n = r->counts;
    to.out = r->words[0];
    int status = out_is_free(&to);
    if (status != ALL_WELL) {
        return status;
    }
    if (!r->given[PAGES] || !r->given[SLOTS] || !r->given[RECORDS] || !r->given[NOTES]) {
        return say("new", "needs --pages, --slots, --log and --notes");
    }
    uint32_t length = pagestore_size(n[PAGES], n[SLOTS], n[RECORDS], n[NOTES]);
    uint32_t answer = pagestore_make(volume, length, n[PAGES], n[SLOTS], n[RECORDS], n[NOTES]);
    if (answer != PAGESTORE_OK) {
        return say_refused(to.out, answer);
    }
    status = write_out(&to, OWNERS_ALONE, volume, length);
    if (status == ALL_WELL && r->json) {
        fprintf(told_on(&to), "{\"bytes\": %u}\n", length);
    }
    return status;
}

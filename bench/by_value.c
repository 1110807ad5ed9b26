#include "by_value.h"

/* The call is made on the reply's own state: one copy of it a call, besides the argument's. */
#define MADE(s, call)            \
    struct reply r;              \
    r.state = s;                 \
    r.answer = (call);           \
    return r

struct reply by_value_restart(struct bytes b) {
    struct reply r;
    r.answer = peer_restart(&r.state, b);
    return r;
}

struct reply by_value_begin(struct state s, struct bytes b, uint32_t page, uint32_t frame, uint8_t fill) {
    MADE(s, peer_begin(&r.state, b, page, frame, fill));
}

struct reply by_value_put(struct state s, struct bytes b, uint32_t page, uint32_t offset, uint32_t length,
                          const uint8_t *payload) {
    MADE(s, peer_put(&r.state, b, page, offset, length, payload));
}

struct reply by_value_force(struct state s, struct bytes b) { MADE(s, peer_force(&r.state, b)); }

struct reply by_value_write(struct state s, struct bytes b, uint32_t page) { MADE(s, peer_write(&r.state, b, page)); }

struct reply by_value_note(struct state s, struct bytes b) { MADE(s, peer_note(&r.state, b)); }

struct reply by_value_load(struct state s, struct bytes b, uint32_t page, uint32_t frame) {
    MADE(s, peer_load(&r.state, b, page, frame));
}

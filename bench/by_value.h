/* The peer's calls with the state by value: it goes in as an argument and comes back in the reply. */
#ifndef BY_VALUE_H
#define BY_VALUE_H

#include "store.h"

struct reply {
    struct answer answer;
    struct state state;
};

struct reply by_value_restart(struct bytes b);
struct reply by_value_begin(struct state s, struct bytes b, uint32_t page, uint32_t frame, uint8_t fill);
struct reply by_value_put(struct state s, struct bytes b, uint32_t page, uint32_t offset, uint32_t length,
                          const uint8_t *payload);
struct reply by_value_force(struct state s, struct bytes b);
struct reply by_value_write(struct state s, struct bytes b, uint32_t page);
struct reply by_value_note(struct state s, struct bytes b);
struct reply by_value_load(struct state s, struct bytes b, uint32_t page, uint32_t frame);

#endif

#include "abstract_log.h"

#include <string.h>

void log_append(struct abstract_log *log, struct change change) {
    log->queue[log->pending++] = change;
}

static void apply(uint8_t *body, const struct change *change) {
    uint32_t rest = BODY - change->offset - change->length;
    if (change->kind == 1) memset(body, (int)change->fill, BODY);
    if (change->kind == 3) memmove(body + change->offset + change->length, body + change->offset, rest);
    if (change->kind != 1) memcpy(body + change->offset, change->payload, change->length);
}

void log_force(struct abstract_log *log) {
    struct change first = log->queue[0];
    memmove(log->queue, log->queue + 1, (size_t)--log->pending * sizeof first);
    apply(log->body[first.page], &first);
    log->number[first.page] = ++log->durable;
}

void log_cut(struct abstract_log *log) {
    log->pending = 0;
}

/* The abstract log (document 01, "What is kept"): the changes that a store must hold, fed with the calls that were made
 * and with what came of them. It shares no code with the store. */
#ifndef ABSTRACT_LOG_H
#define ABSTRACT_LOG_H

#include <stdint.h>

enum { BODY = 244, PAYLOAD = 44, PAGES = 64, PENDING = 16 };

struct change {
    uint32_t page, kind, offset, length, fill;
    uint8_t payload[PAYLOAD];
};

struct abstract_log {
    uint32_t durable;                    /* how many changes are durable */
    uint32_t pending;                    /* and how many are pending */
    struct change queue[PENDING + 1];    /* those, oldest first */
    uint32_t number[PAGES + 1];          /* by page: the number of its last durable change, 0: blank */
    uint8_t body[PAGES + 1][BODY];
};

/* A change was asked for and not refused; the oldest pending one is durable; a cut leaves no pending one. */
void log_append(struct abstract_log *log, struct change change);
void log_force(struct abstract_log *log);
void log_cut(struct abstract_log *log);

#endif

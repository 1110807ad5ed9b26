/* The process that is killed: random calls on a store in a file, each told through a pipe. */
#ifndef CALLER_H
#define CALLER_H

#include "abstract_log.h"
#include "volume.h"

enum tell {
    ASKED,      /* before a begin or a change */
    ANSWERED,   /* behind it, with its answer */
    FORCED,     /* behind a force */
    COMMITTED,  /* behind a commit */
    UPKEPT,     /* upkeep is at rest, behind so many calls; what was pending is durable */
    DEAD,       /* a call failed with this errno, and the handle was found dead */
    LOCKED,     /* there is no more room for this change: a new file, please */
    MISTAKE     /* a call gave what it must not; the answer tells which check */
};

struct message {
    uint32_t tell;
    int32_t answer;
    struct change change;
};

struct task {
    const char *path;
    struct counts counts;
    uint32_t frames, steps;
    int carry;  /* the volume is to be carried over */
    int upkeep; /* upkeep is followed before every call, in frame 1 */
    int out;    /* the pipe */
};

/* Opens the file, makes its calls and ends the process. */
void caller(struct task task);

#endif

/* A line for each check, and whether one failed. */
#ifndef CHECK_H
#define CHECK_H

#include "volume.h"

#include <stdio.h>

static int failures;

static void check(const char *name, int holds) {
    printf("%s %s %s\n", holds ? "ok    " : "FAILED", heading, name);
    if (!holds) failures++;
}

static int verdict(void) {
    printf("%s\n", failures ? "some cases FAILED" : "all cases hold");
    return failures ? 1 : 0;
}

#endif

/* `bench`: compares the proved code with the peers, then times both in turns; `bench check`: compares only. */
#define _POSIX_C_SOURCE 199309L
#include "bench.h"

#include <stdio.h>
#include <string.h>
#include <time.h>

double now(void) {
    struct timespec t;
    clock_gettime(CLOCK_MONOTONIC, &t);
    return 1e9 * (double)t.tv_sec + (double)t.tv_nsec;
}

void row(const char *name, double proved, double peer) {
    printf("| %s | %.0f | %.0f | %.2f |\n", name, proved, peer, proved / peer);
    fflush(stdout);
}

/* The load average, since a busy machine is no place to measure. */
static void load(const char *when) {
    char line[64] = "unknown";
    FILE *f = fopen("/proc/loadavg", "r");
    if (f) {
        if (fgets(line, sizeof line, f)) line[strcspn(line, "\n")] = 0;
        fclose(f);
    }
    printf("load average %s: %s\n", when, line);
}

int main(int argc, char **argv) {
    inspection_compared();
    cycles_compared();
    readers_compared();
    printf("the proved code and the peers in C give the same on every input\n");
    if (argc > 1 && !strcmp(argv[1], "check")) return 0;
    load("at the start");
    printf("\n| ns, best of the rounds | proved | C | ratio |\n|---|---:|---:|---:|\n");
    inspection_timed();
    cycles_timed();
    readers_timed();
    printf("\n");
    load("at the end");
    return 0;
}

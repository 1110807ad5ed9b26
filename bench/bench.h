/* What `make bench` runs: each pair of sides is compared on every input, then timed in turns. */
#ifndef BENCH_H
#define BENCH_H

/* Stop the program at the first answer in which the two sides differ. */
void inspection_compared(void);
void cycles_compared(void);
void readers_compared(void);

/* Print a row for each input. */
void inspection_timed(void);
void cycles_timed(void);
void readers_timed(void);

/* The clock, in ns. */
double now(void);

/* A row of the table: ns of the proved side and of the peer. */
void row(const char *name, double proved, double peer);

#endif

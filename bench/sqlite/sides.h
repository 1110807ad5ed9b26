/* The same work by two stores: a change of 44 bytes on one of eight pages of 244, durable when the call returns. */
#ifndef SIDES_H
#define SIDES_H

#include <stdint.h>

enum { PAGES = 8, BODY = 244, PIECE = 44 };

struct side {
    const char *name;
    int (*open)(const char *directory, int fresh);      /* 0, or what went wrong */
    void (*change)(uint32_t page, const char *piece);   /* the piece's 44 bytes at the page's offset 100 */
    int (*text)(uint32_t page, char *piece);            /* reads them: 0, or what went wrong */
    void (*settle)(void);                               /* what the log holds goes to the pages */
    void (*close)(void);
    const char *file, *log;                             /* where the pages lie, and the log; NULL: in one file */
};
extern const struct side ours, sqlite_blob, sqlite_row;

/* What went to the system, counted by wrappers of its calls (--wrap). */
extern struct counted {
    unsigned long bytes, writes, syncs;
} counted;

/* From now on writes that hold this piece are lost: the system says that they were made. NULL: none are. */
extern const char *losing;

void must(int holds, const char *what);

#endif

/* What a power cut and a bad disk do to the volume under test: what document 01 allows them, and no more. */
#ifndef HARM_H
#define HARM_H

#include "disk.h"

enum left { OLD, NEW, TORN, LEFTS };
enum damage { EARLIER_IMAGE, RANDOM_BYTES, ONE_BYTE, ERASED, DAMAGES };

/* How often each was done. */
extern struct harmed {
    unsigned long cut[KINDS][LEFTS];
    unsigned long by_chance;  /* torn items that passed their check: left old instead */
    unsigned long spared;     /* images that a ring had no other for: left old instead of torn */
    unsigned long damaged[DAMAGES];
} harmed;

/* A new volume. Guarded: it is or becomes a ring, which counts on a noted backup or an own image as new. */
void harm_begin(const char *path, int guarded);

/* The power is cut, or only the process is dead: then what it wrote lies in the cache. What was being stored is left
 * old, new or failing its check. */
void cut_off(int power);

/* Images are left failing their check, or as they were stored there earlier. */
void damage(void);

#endif

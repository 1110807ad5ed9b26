/* The parts of the picture. */
#ifndef MAP_H
#define MAP_H

#include "tool.h"

enum { WIDTH = 1280, MARGIN = 24 };

/* What is drawn. */
struct subject {
    const struct input *in;
    const struct geometry *g;
    const struct store *s;
    char room[2][ROOM_WORDS_SIZE];
};

/* Where the picture goes, and how far down it has come. */
struct picture {
    FILE *to;
    int y;
};

struct box {
    int x, y, width, height;
    const char *look, *title;
};

void put(struct picture *m, const char *format, ...) __attribute__((format(printf, 2, 3)));
void put_escaped(struct picture *m, const uint8_t *text, size_t length);
void put_head(struct picture *m, const char *format, ...) __attribute__((format(printf, 2, 3)));
void open_box(struct picture *m, const struct box *b);
void close_box(struct picture *m);
const char *page_word(const struct page *p);

/* boxes.c */
void draw_pages(struct picture *m, const struct subject *x);
void draw_slots(struct picture *m, const struct subject *x);

/* cells.c */
void draw_log(struct picture *m, const struct subject *x);
void draw_notes(struct picture *m, const struct subject *x);

#endif

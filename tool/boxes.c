/* The boxes of the picture: pages and backup slots. */
#include "map.h"

#include <string.h>

enum {
    PAGE_COLUMNS = 8,
    PAGE_WIDTH = 148,
    PAGE_HEIGHT = 60,
    SLOT_COLUMNS = 8,
    SLOT_WIDTH = 148,
    SLOT_HEIGHT = 38,
    GAP = 6
};
enum { LINE_BYTES = 92 };

static int column(uint32_t i, int columns, int width) {
    return MARGIN + (int)(i % (uint32_t)columns) * (width + GAP);
}

static int row(uint32_t i, int columns, int height) {
    return (int)(i / (uint32_t)columns) * (height + GAP);
}

/* How far down so many boxes go. */
static int rows(uint32_t count, int columns, int height) {
    return count == 0 ? 0 : row(count - 1, columns, height) + height;
}

/* The first line of the text; what is longer than the box is cut off by its frame. */
static void put_first_line(struct picture *m, const uint8_t *body, int x, int y) {
    const uint8_t *end = memchr(body, '\n', LINE_BYTES);
    size_t length = text_length(body, end != NULL ? (size_t)(end - body) : LINE_BYTES);
    put(m, "<svg x=\"%d\" y=\"%d\" width=\"%d\" height=\"14\"><text y=\"11\" class=\"text\">", x + 6, y,
        PAGE_WIDTH - 12);
    put_escaped(m, body, length);
    put(m, "</text></svg>");
}

static const char *page_look(const struct page *p) {
    if (p->answer == PAGESTORE_BLANK_PAGE) {
        return "blank";
    }
    return p->answer != PAGESTORE_OK ? "lost" : is_good(p) ? "good" : "mended";
}

static void draw_page(struct picture *m, const struct page *p, uint32_t page, int x, int y) {
    char title[160];
    snprintf(title, sizeof title, "page %u: %s", page,
             p->answer == PAGESTORE_OK ? page_word(p) : pagestore_text(p->answer));
    struct box b = {x, y, PAGE_WIDTH, PAGE_HEIGHT, page_look(p), title};
    open_box(m, &b);
    put(m, "<text x=\"%d\" y=\"%d\" class=\"word\">%u  %s</text>", x + 6, y + 17, page, page_word(p));
    if (p->answer == PAGESTORE_OK) {
        put(m, "<text x=\"%d\" y=\"%d\">from %s + %u</text>", x + 6, y + 34, start_word(p->start), p->count);
        put_first_line(m, p->image + PAGESTORE_IMAGE_BODY, x, y + 42);
    }
    close_box(m);
}

void draw_pages(struct picture *m, const struct subject *x) {
    put_head(m, "Pages");
    for (uint32_t i = 0; i < x->g->pages; i++) {
        struct page p = examine(x->in, i + 1);
        draw_page(m, &p, i + 1, column(i, PAGE_COLUMNS, PAGE_WIDTH), m->y + row(i, PAGE_COLUMNS, PAGE_HEIGHT));
    }
    m->y += rows(x->g->pages, PAGE_COLUMNS, PAGE_HEIGHT);
}

/* The page whose noted backup the slot holds, or 0. */
static uint32_t owner(const struct subject *x, uint32_t slot) {
    uint32_t page = 1;
    while (page <= x->g->pages && index_entry(x->s, page).slot != slot) {
        page++;
    }
    return page <= x->g->pages ? page : 0;
}

static void draw_slot(struct picture *m, const struct subject *x, uint32_t slot, int left, int top) {
    uint32_t fields[PAGESTORE_FIELDS_SIZE] = {0}, page = owner(x, slot);
    uint32_t lsn = page != 0 ? index_entry(x->s, page).backup : 0;
    char title[120] = "free", words[60] = "free";
    pagestore_slot(VOLUME(x->in), slot, fields, PAGESTORE_FIELDS_SIZE);
    bool passes = fields[0] == WHOLE_SLOT && fields[1] == page && fields[2] == lsn;
    if (page != 0) {
        snprintf(words, sizeof words, "page %u at %u", page, lsn);
        snprintf(title, sizeof title, "backup of page %u as of record %u: %s", page, lsn, passes ? "passes" : "fails");
    }
    struct box b = {left, top, SLOT_WIDTH, SLOT_HEIGHT, page == 0 ? "empty" : passes ? "good" : "lost", title};
    open_box(m, &b);
    put(m, "<text x=\"%d\" y=\"%d\">slot %u%s</text><text x=\"%d\" y=\"%d\">%s</text>", left + 6, top + 15, slot,
        page == 0 ? "" : passes ? ": PASSES" : ": FAILS", left + 6, top + 31, words);
    close_box(m);
}

void draw_slots(struct picture *m, const struct subject *x) {
    put_head(m, x->g->slots > 0 ? "Backup slots" : "Backup slots: none");
    for (uint32_t i = 0; i < x->g->slots; i++) {
        draw_slot(m, x, i + 1, column(i, SLOT_COLUMNS, SLOT_WIDTH), m->y + row(i, SLOT_COLUMNS, SLOT_HEIGHT));
    }
    m->y += rows(x->g->slots, SLOT_COLUMNS, SLOT_HEIGHT);
}

/* The cells of the picture: log slots and note slots, row by row. */
#include "map.h"

enum { COLUMNS = 32, SIDE = 40, CELL_WIDTH = 37, CELL_HEIGHT = 24, INSIDE = 20 };

/* A slot: what stands in its box, how the box looks, and its title. */
struct cell {
    char word[12], title[120];
    const char *look;
};

static void draw_cell(struct picture *m, uint32_t i, const struct cell *c, bool next) {
    int x = MARGIN + SIDE + (int)(i % COLUMNS) * CELL_WIDTH, y = m->y + (int)(i / COLUMNS) * CELL_HEIGHT;
    bool strong = c->look[0] == 'n';
    struct box b = {x, y, CELL_WIDTH - 3, INSIDE, c->look, c->title};
    if (i % COLUMNS == 0) {
        put(m, "<text x=\"%d\" y=\"%d\" class=\"side\">%u</text>\n", x - 6, y + 14, i + 1);
    }
    open_box(m, &b);
    if (next) {
        put(m, "<path d=\"M%d %dh11l-11 11z\" class=\"mark\"/>", x, y);
    }
    put(m, "<text x=\"%d\" y=\"%d\" class=\"cell%s\">%s</text>", x + 17, y + 14, strong ? " strong" : "", c->word);
    close_box(m);
}

static void end_cells(struct picture *m, uint32_t count) {
    m->y += (int)((count + COLUMNS - 1) / COLUMNS) * CELL_HEIGHT;
}

/* Log and notes are rings: what is not needed may be overwritten. Else nothing ever is. */
static bool is_ring(const struct geometry *g) {
    return g->heading == PAGESTORE_HEADING_SECOND && g->records >= 2;
}

/* A slot that holds nothing whole. */
static struct cell bare_cell(const char *what, uint32_t slot, uint32_t is) {
    struct cell c = {"", "", is == TORN_SLOT ? "torn" : "empty"};
    snprintf(c.word, sizeof c.word, "%s", is == TORN_SLOT ? "x" : "");
    snprintf(c.title, sizeof c.title, "%s slot %u: %s", what, slot, c.look);
    return c;
}

static struct cell record_cell(const struct subject *x, uint32_t slot) {
    struct record one = record_in(x->in, slot);
    if (one.is != WHOLE_SLOT) {
        return bare_cell("log", slot, one.is);
    }
    struct entry e = index_entry(x->s, one.page);
    struct cell c = {"", "", is_ring(x->g) && e.slot != 0 && e.backup >= one.number ? "spare" : "needed"};
    snprintf(c.word, sizeof c.word, "%u", one.page);
    snprintf(c.title, sizeof c.title, "log slot %u: record %u, page %u, %s", slot, one.number, one.page, c.look);
    return c;
}

void draw_log(struct picture *m, const struct subject *x) {
    uint32_t last = x->s->state[PAGESTORE_STATE_DURABLE], slots = x->g->records;
    uint32_t next = is_ring(x->g) || last < slots ? last % slots : slots;
    put_head(m, "Log: the last record is %u%s", last, next == slots ? "; the log is full" : "");
    for (uint32_t i = 0; i < slots; i++) {
        struct cell c = record_cell(x, i + 1);
        draw_cell(m, i, &c, i == next);
    }
    end_cells(m, slots);
}

/* The highest note of each page and kind: those below it are spare. */
struct newest {
    uint32_t note[PAGESTORE_PAGES_MAX + 1][BACKUP_NOTE + 1];
};

static bool is_usual(const struct note *n) {
    return n->is == WHOLE_SLOT && n->page <= PAGESTORE_PAGES_MAX && n->kind <= BACKUP_NOTE;
}

static void find_newest(struct newest *w, const struct subject *x) {
    for (uint32_t slot = 1; slot <= x->g->notes; slot++) {
        struct note n = note_in(x->in, slot);
        if (is_usual(&n) && w->note[n.page][n.kind] < n.number) {
            w->note[n.page][n.kind] = n.number;
        }
    }
}

static struct cell note_cell(const struct subject *x, const struct newest *w, uint32_t slot) {
    struct note n = note_in(x->in, slot);
    if (!is_usual(&n)) {
        return bare_cell("note", slot, n.is);
    }
    bool backup = n.kind == BACKUP_NOTE, spare = is_ring(x->g) && n.number < w->note[n.page][n.kind];
    struct cell c = {"", "", spare ? "spare" : "needed"};
    snprintf(c.word, sizeof c.word, "%c%u", backup ? 'B' : 'W', n.page);
    snprintf(c.title, sizeof c.title, "note slot %u: note %u, page %u %s as of record %u, %s", slot, n.number, n.page,
             backup ? "backed up" : "written", n.lsn, c.look);
    return c;
}

void draw_notes(struct picture *m, const struct subject *x) {
    uint32_t last = x->s->state[PAGESTORE_STATE_NOTES], slots = x->g->notes;
    uint32_t next = slots > 0 && (is_ring(x->g) || last < slots) ? last % slots : slots;
    struct newest w = {0};
    find_newest(&w, x);
    put_head(m, slots > 0 ? "Notes: the last note is %u%s" : "Notes: none", last,
             next == slots ? "; they are full" : "");
    for (uint32_t i = 0; i < slots; i++) {
        struct cell c = note_cell(x, &w, i + 1);
        draw_cell(m, i, &c, i == next);
    }
    end_cells(m, slots);
}

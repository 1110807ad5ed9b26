/* map: a volume as one SVG picture, without scripts or outside fonts. What is said by colour is said by a word or a
 * mark too; the description says in words what the boxes show. */
#define _POSIX_C_SOURCE 200809L
#include "map.h"

#include <stdarg.h>
#include <stdlib.h>
#include <string.h>

/* Text inside SVG: what XML reserves is escaped, what it forbids and what is no text is a point. */
void put_escaped(struct picture *m, const uint8_t *text, size_t length) {
    for (size_t i = 0; i < length;) {
        size_t size = text_character(text + i, length - i);
        uint8_t c = text[i];
        bool none = size == 3 && c == 0xef && text[i + 1] == 0xbf && text[i + 2] >= 0xbe; /* U+FFFE, U+FFFF */
        const char *as = c == '<' ? "&lt;" : c == '>' ? "&gt;" : c == '&' ? "&amp;" : c == '"' ? "&quot;" : NULL;
        if (as != NULL) {
            fputs(as, m->to);
        } else if (size == 0 || none || c < 0x20 || c == 0x7f || (size == 2 && c == 0xc2 && text[i + 1] < 0xa0)) {
            fputc('.', m->to);
        } else {
            fwrite(text + i, 1, size, m->to);
        }
        i += size > 0 ? size : 1;
    }
}

void put(struct picture *m, const char *format, ...) {
    va_list args;
    va_start(args, format);
    vfprintf(m->to, format, args);
    va_end(args);
}

/* The heading of a part; its boxes start below. */
void put_head(struct picture *m, const char *format, ...) {
    va_list args;
    m->y += 36;
    put(m, "<text x=\"%d\" y=\"%d\" class=\"head\">", MARGIN, m->y);
    va_start(args, format);
    vfprintf(m->to, format, args);
    va_end(args);
    put(m, "</text>\n");
    m->y += 12;
}

/* A box with its title; the caller closes the group. */
void open_box(struct picture *m, const struct box *b) {
    put(m, "<g><title>%s</title><rect x=\"%d\" y=\"%d\" width=\"%d\" height=\"%d\" class=\"%s\"/>", b->title, b->x,
        b->y, b->width, b->height, b->look);
}

void close_box(struct picture *m) {
    put(m, "</g>\n");
}

const char *page_word(const struct page *p) {
    return p->answer == PAGESTORE_OK ? class_word(p->class) : p->answer == PAGESTORE_BLANK_PAGE ? "BLANK" : "LOST";
}

/* The file's name without its directories. */
static const char *last_part(const char *name) {
    const char *slash = strrchr(name, '/');
    return slash != NULL ? slash + 1 : name;
}

static void put_name(struct picture *m, const struct subject *x) {
    const char *name = last_part(x->in->name);
    put_escaped(m, (const uint8_t *)name, strlen(name));
}

static void put_description(struct picture *m, const struct subject *x) {
    put(m, "<title id=\"title\">Volume ");
    put_name(m, x);
    put(m, "</title>\n<desc id=\"desc\">");
    for (uint32_t page = 1; page <= x->g->pages; page++) {
        struct page p = examine(x->in, page);
        put(m, "Page %u %s. ", page, page_word(&p));
    }
    put(m, "%s. %s.</desc>\n", x->room[0], x->room[1]);
}

static void put_style(struct picture *m) {
    put(m, "<style>text{font-family:sans-serif;font-size:12px;fill:#000}.name{font-size:20px;font-weight:bold}"
           ".head{font-size:15px;font-weight:bold}.word{font-weight:bold}.text{font-family:monospace;font-size:10px}"
           ".cell{font-size:11px;text-anchor:middle}.side{font-size:10px;text-anchor:end}"
           "rect{fill:#fff;stroke:#555}.good{fill:#eef7ee}.mended{fill:#fff1cc;stroke:#000;stroke-width:2}"
           ".lost{fill:#f6c9c9;stroke:#000;stroke-width:4}.blank,.empty{stroke:#999;stroke-dasharray:3 3}"
           ".needed{fill:#cfe0f5;stroke:#000;stroke-width:2}.torn{fill:url(#torn);stroke:#000}"
           ".mark{fill:#000}.strong{font-weight:bold}</style>\n"
           "<defs><pattern id=\"torn\" width=\"6\" height=\"6\" patternUnits=\"userSpaceOnUse\">"
           "<rect width=\"6\" height=\"6\" style=\"stroke:none\"/><path d=\"M0 6L6 0\" "
           "stroke=\"#777\"/></pattern></defs>\n");
}

static void put_top(struct picture *m, const struct subject *x) {
    const struct geometry *g = x->g;
    put(m, "<rect width=\"100%%\" height=\"100%%\" style=\"stroke:none\"/>\n<text x=\"%d\" y=\"36\" class=\"name\">",
        MARGIN);
    put_name(m, x);
    put(m,
        "</text>\n<text x=\"%d\" y=\"58\">%u pages, %u backup slots, %u log slots, %u note slots; %s "
        "heading%s.</text>\n",
        MARGIN, g->pages, g->slots, g->records, g->notes, heading_word(g->heading),
        g->heading == PAGESTORE_HEADING_SECOND ? ", that of today's volumes" : ", that of an older box: convert it");
    put(m, "<text x=\"%d\" y=\"76\">%s.</text>\n<text x=\"%d\" y=\"94\">%s.</text>\n", MARGIN, x->room[0], MARGIN,
        x->room[1]);
    m->y = 96;
}

static void put_legend(struct picture *m) {
    static const char *const lines[] = {
        "Pages: the number and the class; what a reading starts from + how many log records it replays; the first line "
        "of the text. Thin frame: GOOD.",
        "Thick frame: BEHIND, STALE, FAILED or AHEAD: the text is safe, the image on disk is not up to date or is "
        "damaged. "
        "Heaviest frame: LOST. Dashed: BLANK.",
        "Backup slots: whose backup, as of which log record. PASSES or FAILS is its check. Dashed: free.",
        "Log and notes: a box a slot, row by row, with its page (W: page written, B: page backed up). Thick frame, "
        "bold: "
        "needed. Thin: spare, may be overwritten.",
        "Hatched, x: torn. Dashed: empty. Black corner: the next record or note goes here.",
    };
    put_head(m, "Legend");
    for (size_t i = 0; i < sizeof lines / sizeof lines[0]; i++) {
        m->y += 18;
        put(m, "<text x=\"%d\" y=\"%d\">%s</text>\n", MARGIN, m->y, lines[i]);
    }
}

/* The parts, into memory: the height is known when all is drawn. */
static int draw_parts(const struct subject *x, char **inside, int *height) {
    size_t size = 0;
    struct picture m = {open_memstream(inside, &size), 0};
    if (m.to == NULL) {
        return say_error("memory");
    }
    put_description(&m, x);
    put_style(&m);
    put_top(&m, x);
    draw_pages(&m, x);
    draw_slots(&m, x);
    draw_log(&m, x);
    draw_notes(&m, x);
    put_legend(&m);
    *height = m.y + MARGIN;
    return fclose(m.to) == 0 ? ALL_WELL : say_error("memory");
}

static int draw(const struct subject *x, char **svg, size_t *length) {
    char *inside = NULL;
    int height = 0, status = draw_parts(x, &inside, &height);
    FILE *to = status == ALL_WELL ? open_memstream(svg, length) : NULL;
    if (to != NULL) {
        fprintf(to,
                "<svg xmlns=\"http://www.w3.org/2000/svg\" role=\"img\" aria-labelledby=\"title desc\" width=\"%d\" "
                "height=\"%d\" viewBox=\"0 0 %d %d\">\n%s</svg>\n",
                WIDTH, height, WIDTH, height, inside);
        status = fclose(to) == 0 ? ALL_WELL : say_error("memory");
    } else if (status == ALL_WELL) {
        status = say_error("memory");
    }
    free(inside);
    return status;
}

int run_map(const struct request *r) {
    static struct input in;
    struct geometry g;
    struct store s;
    struct subject x = {&in, &g, &s, {"", ""}};
    char *svg = NULL;
    size_t length = 0;
    int status = out_is_free(r);
    status = status == ALL_WELL ? open_store(&in, &g, &s, r->words[0]) : status;
    if (status != ALL_WELL) {
        return status;
    }
    room_words(x.room, &in, &g);
    status = draw(&x, &svg, &length);
    status = status == ALL_WELL ? write_out(r, in.mode, (const uint8_t *)svg, length) : status;
    free(svg);
    if (status == ALL_WELL && r->json) {
        fprintf(told_on(r), "{\"bytes\": %zu}\n", length);
    }
    return status;
}

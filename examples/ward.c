/* A ward's handover, a thread on each of eight pages, in one file:
 *
 *     ward FILE new               makes the file
 *     ward FILE say PAGE "text"   puts a line behind the last one; says kept once it is on the disk
 *     ward FILE read PAGE         the whole thread, oldest line first
 *
 * A line ends with a newline, which is stored with its last bytes: a line that a cut left half is not shown, and the
 * next one takes its place. WARD_PAUSE=n waits n seconds between two stores of a long line, to pull the plug in.
 * Exit status: 0; 1 refused or failed; 2 not called so. */
#include "pagestore_file.h"

#include <stdio.h>
#include <stdlib.h>
#include <string.h>
#include <unistd.h>

enum { PAGES = 8, SLOTS = 9, RECORDS = 1024, NOTES = 1024 };
enum { OWN = 1, SPARE = 2, FRAMES = 2 }; /* the page that is read or written is in the first, the second is upkeep's */

/* Tells what an answer means; gives the exit status. */
static int failed(const char *what, int answer) {
    fprintf(stderr, "%s: %s\n", what, answer < 0 ? strerror(-answer) : pagestore_text((uint32_t)answer));
    return 1;
}

/* Upkeep, before every call of ours: then none is refused for room, however long the file is used. A page that it is
 * stuck at is lost, and in the end the file with it; until then the others go on. */
static int upkeep(struct pagestore_file *file) {
    int answer = pagestore_file_upkeep(file, SPARE);
    if (answer != (int)PAGESTORE_PAGE_LOST) return answer;
    fprintf(stderr, "(page %u is lost: copy the other pages to a new file)\n",
            (unsigned)pagestore_file_report(file)[PAGESTORE_REPORT_PAGE]);
    return 0;
}

/* Brings the page into its frame; upkeep may have it in the other. */
static int bring_in(struct pagestore_file *file, uint32_t page) {
    int answer = upkeep(file);
    if (answer == 0 && pagestore_file_text(file, page) != NULL) answer = pagestore_file_release(file, page);
    return answer == 0 ? pagestore_file_load(file, page, OWN) : answer;
}

/* The length of the thread in a body: all up to the last newline. */
static uint32_t thread_length(const uint8_t *body) {
    uint32_t length = PAGESTORE_BODY_SIZE;
    while (length > 0 && body[length - 1] != '\n') length--;
    return length;
}

/* Puts a line, newline included, at the offset, 44 bytes at most in a store; 0 once all of it is on the disk. */
static int put_line(struct pagestore_file *file, uint32_t page, uint32_t offset, const char *line, uint32_t length) {
    const char *pause = getenv("WARD_PAUSE");
    for (uint32_t done = 0, n; done < length; done += n) {
        if (done > 0 && pause != NULL) sleep((unsigned)atoi(pause));
        n = length - done < PAGESTORE_PAYLOAD_MAX ? length - done : PAGESTORE_PAYLOAD_MAX;
        int answer = upkeep(file);
        if (answer == 0)
            answer = pagestore_file_change(file, page, PAGESTORE_PUT, offset + done, n, 0, (const uint8_t *)line + done,
                                           n);
        if (answer == 0) answer = pagestore_file_commit(file);
        if (answer != 0) return answer;
    }
    return 0;
}

/* Stores the page's image, so that the next load is short; backups are upkeep's. The line is kept already: where this
 * fails nothing is lost. */
static void tidy(struct pagestore_file *file, uint32_t page) {
    if (upkeep(file) == 0 && pagestore_file_write(file, page) == 0) pagestore_file_note(file);
}

static int say(struct pagestore_file *file, uint32_t page, const char *text) {
    char line[PAGESTORE_BODY_SIZE + 1];
    int answer = bring_in(file, page);
    if (answer == (int)PAGESTORE_BLANK_PAGE) answer = pagestore_file_begin(file, page, OWN, 0);
    if (answer != 0) return failed("not kept", answer);
    uint32_t offset = thread_length(pagestore_file_text(file, page)), room = PAGESTORE_BODY_SIZE - offset;
    size_t length = strlen(text) + 1;
    if (strchr(text, '\n') != NULL || length > room) {
        fprintf(stderr, "not kept: the page has room for one line of %u bytes\n", room > 0 ? room - 1 : 0);
        return 1;
    }
    snprintf(line, sizeof line, "%s\n", text);
    answer = put_line(file, page, offset, line, (uint32_t)length);
    if (answer != 0) return failed("not kept", answer);
    puts("kept");
    fflush(stdout);
    tidy(file, page);
    return 0;
}

static int read_thread(struct pagestore_file *file, uint32_t page) {
    int answer = bring_in(file, page);
    if (answer == (int)PAGESTORE_BLANK_PAGE) return 0;
    if (answer != 0) return failed("cannot be read", answer);
    uint32_t class = pagestore_file_report(file)[PAGESTORE_REPORT_CLASS];
    if (class != PAGESTORE_GOOD && class != PAGESTORE_BEHIND)
        fprintf(stderr, "(page %u was damaged on the disk; this is its repair)\n", (unsigned)page);
    const uint8_t *body = pagestore_file_text(file, page);
    return fwrite(body, 1, thread_length(body), stdout) == thread_length(body) ? 0 : 1;
}

static int usage(void) {
    fprintf(stderr, "usage: ward FILE new | ward FILE say PAGE TEXT | ward FILE read PAGE (page 1 to %d)\n", PAGES);
    return 2;
}

int main(int argc, char **argv) {
    struct pagestore_file *file;
    char *end = "";
    unsigned long page = argc > 3 ? strtoul(argv[3], &end, 10) : 1;
    int says = argc == 5 && strcmp(argv[2], "say") == 0, reads = argc == 4 && strcmp(argv[2], "read") == 0;
    if (argc == 3 && strcmp(argv[2], "new") == 0) {
        int answer = pagestore_file_create(argv[1], PAGES, SLOTS, RECORDS, NOTES);
        return answer == 0 ? 0 : failed(argv[1], answer);
    }
    if ((!says && !reads) || *end != '\0' || page < 1 || page > PAGES) return usage();
    int answer = pagestore_file_open(&file, argv[1], FRAMES);
    if (answer != 0) return failed(argv[1], answer);
    int status = says ? say(file, (uint32_t)page, argv[4]) : read_thread(file, (uint32_t)page);
    answer = pagestore_file_close(file);
    return answer == 0 ? status : failed(argv[1], answer);
}

/* What the files of the tool share. The tool judges nothing by itself: every verdict is a call of libpagestore. */
#ifndef TOOL_H
#define TOOL_H

#include "pagestore.h"

#include <stdbool.h>
#include <stddef.h>
#include <stdint.h>
#include <stdio.h>
#include <sys/types.h>

/* Exit statuses. */
enum status {
    ALL_WELL = 0,      /* done, and nothing to tell */
    FOUND = 1,         /* a page that is not Good, logs that differ, no room left */
    NOT_DONE = 2,      /* refused, or wrong use */
    SYSTEM_FAILED = 3, /* cannot read, cannot write */
};

/* The counts that --pages, --slots, --log and --notes give. */
enum count { PAGES, SLOTS, RECORDS, NOTES, COUNTS };

/* A command line, taken apart. */
struct request {
    const char *words[2]; /* the file, then a second file or a page */
    const char *out;      /* -o: a name, "-" for standard output, or NULL */
    bool json, force, raw, hex, perform;
    uint32_t counts[COUNTS];
    bool given[COUNTS];
};

/* A volume or an archive, read whole; one byte more than the largest tells a longer file. */
struct input {
    const char *name;
    mode_t mode; /* what is made from the file may be read and written by the same people */
    size_t length;
    uint8_t bytes[PAGESTORE_VOLUME_MAX + 1];
};

/* What a volume's heading says. */
struct geometry {
    uint32_t heading, pages, slots, records, notes;
};

/* A restarted store with one frame. */
#define TOOL_FRAMES 1u
struct store {
    uint32_t state[PAGESTORE_STATE_SIZE];
    uint32_t report[PAGESTORE_CALL_REPORT_SIZE];
    uint8_t memory[PAGESTORE_MEMORY_SIZE(TOOL_FRAMES)];
};

/* How calls on a store are lent what they take. */
#define VOLUME(in) (in)->bytes, (in)->length
#define MEMORY(s) (s)->memory, sizeof(s)->memory
#define STATE(s) (s)->state, PAGESTORE_STATE_SIZE
#define REPORT(s) (s)->report, PAGESTORE_CALL_REPORT_SIZE

/* What stands in a log slot or a note slot, as pagestore_record and pagestore_note_at tell it. */
struct record {
    uint32_t is, number, previous, page, kind, length, offset, fill;
};
struct note {
    uint32_t is, number, page, kind, slot, lsn;
};
enum { EMPTY_SLOT = PAGESTORE_SLOT_ZEROS, WHOLE_SLOT = PAGESTORE_SLOT_WHOLE, TORN_SLOT = PAGESTORE_SLOT_FAILS };
enum { WRITTEN_NOTE = 1, BACKUP_NOTE = 2 };

/* A page's entry in the index that a restart gives: the last noted write, the slot and the record of its backup. */
struct entry {
    uint32_t written, slot, backup;
};

/* What inspection says of one page: PAGESTORE_OK, PAGESTORE_BLANK_PAGE or PAGESTORE_PAGE_LOST; its text, repaired. */
struct page {
    uint32_t answer, class, start, count;
    uint8_t image[PAGESTORE_IMAGE_SIZE];
};

/* input.c */
int read_input(struct input *in, const char *name);
int open_volume(struct input *in, struct geometry *g, const char *name);
int open_store(struct input *in, struct geometry *g, struct store *s, const char *name);
int restart(struct store *s, const struct input *in);
bool to_number(const char *word, uint32_t *number);
struct page examine(const struct input *in, uint32_t page);
bool is_good(const struct page *p);
struct record record_in(const struct input *in, uint32_t slot);
struct note note_in(const struct input *in, uint32_t slot);
struct entry index_entry(const struct store *s, uint32_t page);
const uint8_t *payload_in(const struct input *in, const struct geometry *g, uint32_t slot);

/* output.c: every write is checked; a file gets its name only when it is whole and synced. */
int out_is_free(const struct request *r);
int write_out(const struct request *r, mode_t mode, const uint8_t *bytes, size_t length);
int close_output(void);
void guard_descriptors(void);
FILE *told_on(const struct request *r);

/* words.c */
int say(const char *name, const char *words);
int say_error(const char *name);
int say_refused(const char *name, uint32_t answer);
const char *class_word(uint32_t number);
const char *start_word(uint32_t number);
const char *heading_word(uint32_t heading);
const char *kind_word(uint32_t number);
const char *slot_word(uint32_t is);
size_t text_length(const uint8_t *bytes, size_t length);
size_t text_character(const uint8_t *bytes, size_t length);
void print_text(FILE *to, const uint8_t *bytes, size_t length);
void print_line(FILE *to, const uint8_t *bytes, size_t length);
void print_json_string(FILE *to, const uint8_t *bytes, size_t length);
void print_json_name(FILE *to, const char *name);

/* scan.c: the room for log records and for notes, in words; FOUND where there is none */
#define ROOM_WORDS_SIZE 120
int room_words(char words[2][ROOM_WORDS_SIZE], const struct input *in, const struct geometry *g);

/* text.c */
void print_change(const struct record *x, const uint8_t *payload);

/* upkeep.c: what upkeep advises of a restarted volume, in words; FOUND where it is stuck */
#define ADVICE_SIZE 120
int advise(char words[ADVICE_SIZE], const struct input *in, const struct store *s);

/* command.c: the command line without the program's name; the exit status */
int run_command(int count, char **words);

/* the commands */
int run_scan(const struct request *r);
int run_show(const struct request *r);
int run_history(const struct request *r);
int run_log(const struct request *r);
int run_notes(const struct request *r);
int run_forecast(const struct request *r);
int run_repair(const struct request *r);
int run_archive(const struct request *r);
int run_restore(const struct request *r);
int run_compare(const struct request *r);
int run_convert(const struct request *r);
int run_upkeep(const struct request *r);
int run_map(const struct request *r);
int run_new(const struct request *r);

#endif

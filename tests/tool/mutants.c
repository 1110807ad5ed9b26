/* mutants COUNT SEED DIRECTORY VOLUME ...: runs the tool's commands, sanitized, on mutated volumes and archives.
 *
 * Each volume and its archive are mutated: bytes turned, cut, lengthened, parts copied, counts changed; half of the
 * mutants get right checksums again, so that they reach further. No command may crash, hang or give another status than
 * 0 to 3; what a repair calls mended must be Good, and what a restore gives must have the archive that was read. */
#define _POSIX_C_SOURCE 200809L
#include "../../tool/tool.h"

#include <fcntl.h>
#include <stdlib.h>
#include <string.h>
#include <unistd.h>

enum { FILES = 32, SPACE = 140000 };

struct bytes {
    size_t length;
    uint8_t at[SPACE];
};

static struct bytes originals[FILES], mutant, other;
static char place[4000], made[4010], again[4010];
static uint64_t seed;

/* xorshift64* */
static uint32_t below(uint32_t n) {
    seed ^= seed >> 12;
    seed ^= seed << 25;
    seed ^= seed >> 27;
    return (uint32_t)(seed * 2685821657736338717u >> 32) % n;
}

static void die(const char *what, uint32_t number) {
    dprintf(STDERR_FILENO, "mutants: %s (mutant %u, kept as %s)\n", what, number, place);
    exit(1);
}

static void load(struct bytes *b, const char *name) {
    int from = open(name, O_RDONLY);
    ssize_t n = from < 0 ? -1 : read(from, b->at, SPACE);
    if (n < 0 || close(from) != 0) {
        die(name, 0);
    }
    b->length = (size_t)n;
}

static void store(const struct bytes *b, const char *name) {
    int to = open(name, O_WRONLY | O_CREAT | O_TRUNC, 0600);
    if (to < 0 || write(to, b->at, b->length) != (ssize_t)b->length || close(to) != 0) {
        die(name, 0);
    }
}

/* One change, anywhere. */
static void mutate(struct bytes *b) {
    uint32_t at = below((uint32_t)b->length), run = 1 + below(300);
    run = at + run > b->length ? (uint32_t)b->length - at : run;
    switch (below(8)) {
    case 0: b->at[at] ^= (uint8_t)(1u << below(8)); break;
    case 1: b->at[at] = (uint8_t)below(256); break;
    case 2: memset(b->at + at, below(2) ? 0 : 255, run); break;
    case 3: b->length = below(4) ? b->length : 1 + at; break;
    case 4: b->length += below(4) || b->length + 64 > SPACE ? 0 : 1 + below(64); break;
    case 5: memmove(b->at + at, b->at + below((uint32_t)b->length - run + 1), run); break;
    case 6: b->at[at & ~63u] = (uint8_t)below(256); break;
    default: b->at[below(16) % b->length] ^= (uint8_t)(1u << below(8)); break;
    }
}

static void seal(uint8_t *item, size_t size, size_t step) {
    uint32_t a = 1, b = 0;
    for (size_t i = 0; i < size - 4; i += step) {
        a = (a + item[i] + (step == 2 ? 256u * item[i + 1] : 0)) % 65535;
        b = (b + a) % 65535;
    }
    uint32_t sum = b * 65536 + a;
    for (int i = 0; i < 4; i++) {
        item[size - 4 + (size_t)i] = (uint8_t)(sum >> 8 * i);
    }
}

/* Right checksums in a part of a volume, for items that are not zeros. */
static void seal_items(struct bytes *b, size_t start, size_t count, size_t size, size_t step) {
    static const uint8_t zeros[256];
    for (size_t i = 0; i < count; i++) {
        if (memcmp(b->at + start + size * i, zeros, size) != 0) {
            seal(b->at + start + size * i, size, step);
        }
    }
}

/* Right checksums in the log and the notes of a volume, and at times in its images. */
static void mend_sums(struct bytes *b) {
    uint32_t c[PAGESTORE_COUNTS_SIZE];
    if (pagestore_counts(b->at, b->length, c, PAGESTORE_COUNTS_SIZE) != PAGESTORE_OK) {
        return;
    }
    size_t pages = c[PAGESTORE_COUNTS_PAGES], slots = c[PAGESTORE_COUNTS_SLOTS], records = c[PAGESTORE_COUNTS_RECORDS];
    seal_items(b, 16 + 256 * (pages + slots), records, 64, 2);
    seal_items(b, 20 + 256 * (pages + slots) + 64 * records, c[PAGESTORE_COUNTS_NOTES], 16, 2);
    if (below(2)) {
        size_t step = c[PAGESTORE_COUNTS_HEADING] == PAGESTORE_HEADING_FIRST ? 2 : 1;
        seal_items(b, 8, pages, 256, step);
        seal_items(b, 12 + 256 * pages, slots, 256, step);
    }
}

/* The same in an archive: its records follow their counts. */
static void mend_archive(struct bytes *b) {
    size_t at = 0;
    while (at + 4 <= b->length) {
        size_t records = b->at[at] + 256u * b->at[at + 1];
        at += 4;
        if (records * 64 > b->length - at) {
            return;
        }
        seal_items(b, at, records, 64, 2);
        at += 64 * records;
    }
}

static int run(const char *command, const char *second, const char *option, const char *value) {
    const char *words[] = {command, place, second, option, value, value != NULL ? "--force" : NULL};
    char *line[6];
    int n = 0;
    for (int i = 0; i < 6; i++) {
        if (words[i] != NULL) {
            line[n++] = (char *)words[i];
        }
    }
    int status = run_command(n, line);
    rewind(stdout);
    if (status < ALL_WELL || status > SYSTEM_FAILED) {
        die(command, 0);
    }
    return status;
}

/* Whether every page of a volume is Good or blank. */
static bool all_good(const struct bytes *b) {
    uint32_t c[PAGESTORE_COUNTS_SIZE], report[PAGESTORE_REPORT_SIZE];
    uint8_t image[PAGESTORE_IMAGE_SIZE];
    bool good = pagestore_counts(b->at, b->length, c, PAGESTORE_COUNTS_SIZE) == PAGESTORE_OK;
    for (uint32_t page = 1; good && page <= c[PAGESTORE_COUNTS_PAGES]; page++) {
        uint32_t answer = pagestore_examine(b->at, b->length, page, image, sizeof image, report, PAGESTORE_REPORT_SIZE);
        good = answer == PAGESTORE_BLANK_PAGE || (answer == PAGESTORE_OK && report[0] == PAGESTORE_GOOD);
    }
    return good;
}

/* All commands on a mutated volume; how many gave 0 or 1. */
static uint32_t try_volume(uint32_t number) {
    static const char *const reading[] = {"scan", "log", "notes", "forecast"};
    char page[8];
    uint32_t taken = 0;
    snprintf(page, sizeof page, "%u", below(8));
    for (size_t i = 0; i < sizeof reading / sizeof reading[0]; i++) {
        taken += run(reading[i], NULL, below(2) ? "--json" : NULL, NULL) <= FOUND;
    }
    run("show", page, below(2) ? "--hex" : "--json", NULL);
    run("history", page, below(2) ? "--json" : NULL, NULL);
    run("compare", below(2) ? place : again, NULL, NULL);
    run("archive", NULL, "-o", made);
    run("convert", NULL, "-o", made);
    run("map", NULL, "-o", made);
    if (run("repair", NULL, "-o", made) == ALL_WELL) {
        load(&other, made);
        if (!all_good(&other)) {
            die("a repair left a page that is not Good", number);
        }
    }
    return taken;
}

/* A command with up to four options, in any combination, of its own or not. */
static void try_options(void) {
    static const char *const commands[] = {"scan",    "show",    "history", "log",     "notes", "forecast", "repair",
                                           "archive", "restore", "compare", "convert", "map",   "new"};
    static const char *const options[][2] = {
        {"--json", NULL}, {"--force", NULL}, {"--raw", NULL},   {"--hex", NULL}, {"--help", NULL},
        {"-o", made},     {"-o", "-"},       {"--pages", "3"},  {"--slots", "2"}, {"--log", "9"},
        {"--notes", "x"}, {"2", NULL},       {"--", NULL},      {"-z", NULL},
    };
    char *line[12] = {(char *)commands[below(sizeof commands / sizeof commands[0])], place};
    int n = 2;
    for (uint32_t i = below(5); i > 0; i--) {
        const char *const *option = options[below(sizeof options / sizeof options[0])];
        line[n++] = (char *)option[0];
        if (option[1] != NULL) {
            line[n++] = (char *)option[1];
        }
    }
    int status = run_command(n, line);
    rewind(stdout);
    if (status < ALL_WELL || status > SYSTEM_FAILED) {
        die("options", 0);
    }
}

/* A restore of a mutated archive; whether there was a volume. */
static uint32_t try_archive(uint32_t number) {
    if (run("restore", NULL, "-o", made) != ALL_WELL) {
        return 0;
    }
    load(&other, made);
    static uint8_t archive[PAGESTORE_ARCHIVE_MAX];
    uint32_t length = pagestore_archive_length(other.at, other.length);
    uint32_t answer = pagestore_archive_write(other.at, other.length, archive, length);
    if (answer != PAGESTORE_OK || length != mutant.length || memcmp(archive, mutant.at, length) != 0) {
        die("a restored volume has another archive", number);
    }
    return 1;
}

static uint32_t try_one(uint32_t number, uint32_t files) {
    uint32_t which = below(files), archive = below(4) == 0, changes = below(4), sealed = below(2);
    mutant = originals[which];
    if (archive) {
        uint32_t length = pagestore_archive_length(mutant.at, mutant.length);
        pagestore_archive_write(mutant.at, mutant.length, other.at, length);
        memcpy(mutant.at, other.at, length);
        mutant.length = length;
    }
    for (uint32_t i = 0; mutant.length > 0 && i < changes; i++) {
        mutate(&mutant);
    }
    if (sealed) {
        (archive ? mend_archive : mend_sums)(&mutant);
    }
    store(&mutant, place);
    try_options();
    store(&mutant, place); /* `new --force` may have replaced it */
    return archive ? try_archive(number) : try_volume(number);
}

int main(int argc, char **argv) {
    if (argc < 5 || argc - 4 > FILES) {
        return 2;
    }
    uint32_t count = (uint32_t)atoi(argv[1]), files = (uint32_t)(argc - 4), taken = 0;
    seed = 88172645463325252u + (uint64_t)atoi(argv[2]);
    snprintf(place, sizeof place, "%s/mutant-%ld", argv[3], (long)getpid());
    snprintf(made, sizeof made, "%s.out", place);
    snprintf(again, sizeof again, "%s", argv[4]);
    for (uint32_t i = 0; i < files; i++) {
        load(&originals[i], argv[4 + i]);
    }
    int told = dup(STDOUT_FILENO);
    stderr = fopen("/dev/null", "w"); /* glibc's may be set: the tool's words go there, the sanitizers' do not */
    if (stderr == NULL || !freopen("/dev/null", "w", stdout)) {
        return 3;
    }
    alarm(120); /* a hang is a failure */
    for (uint32_t i = 0; i < count; i++) {
        taken += try_one(i, files);
    }
    dprintf(told, "%u mutated volumes and archives, no crash; %u times taken\n", count, taken);
    unlink(place);
    unlink(made);
    return taken > 0 ? 0 : 1;
}

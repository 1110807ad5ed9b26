/* The command line, taken apart; the list of commands. */
#include "tool.h"

#include <string.h>

/* What a command takes besides --help and --json. */
enum { TAKES_OUT = 1, TAKES_FORCE = 2, TAKES_TEXT = 4, TAKES_PAGES = 8, TAKES_ROOM = 16, TAKES_DO = 32 };

struct command {
    const char *name;
    int (*run)(const struct request *);
    int words; /* the file, and what follows it */
    int takes;
    const char *usage;
    const char *does;
};

#define NEW_USAGE "new FILE --pages P --slots B --log L --notes N"
static const struct command commands[] = {
    {"scan", run_scan, 1, 0, "scan FILE", "a line a page; whether the text is safe; the room that is left"},
    {"show", run_show, 2, TAKES_TEXT, "show FILE PAGE [--raw | --hex]", "the page's text, repaired"},
    {"history", run_history, 2, 0, "history FILE PAGE", "every change of the page that the log holds, oldest first"},
    {"log", run_log, 1, 0, "log FILE", "a line a log slot: what stands there, EMPTY or TORN"},
    {"notes", run_notes, 1, 0, "notes FILE", "a line a note slot: what stands there, EMPTY or TORN"},
    {"forecast", run_forecast, 1, 0, "forecast FILE", "how many log records each page's repair replays"},
    {"repair", run_repair, 1, TAKES_OUT | TAKES_FORCE, "repair FILE -o OUT", "a volume whose pages are all GOOD"},
    {"archive", run_archive, 1, TAKES_OUT | TAKES_FORCE, "archive FILE -o OUT", "the log archive: the whole history"},
    {"restore", run_restore, 1, TAKES_OUT | TAKES_FORCE | TAKES_ROOM, "restore ARCHIVE -o OUT",
     "a fresh volume from a log archive; tells each page's last record"},
    {"compare", run_compare, 2, 0, "compare FILE FILE", "the mirror's log beside ours"},
    {"convert", run_convert, 1, TAKES_OUT | TAKES_FORCE, "convert FILE -o OUT",
     "an older box's volume, of today's form"},
    {"upkeep", run_upkeep, 1, TAKES_DO, "upkeep FILE [--do]", "what to do next so that the box never locks"},
    {"map", run_map, 1, TAKES_OUT | TAKES_FORCE, "map FILE -o OUT.svg", "a picture of the volume"},
    {"new", run_new, 1, TAKES_FORCE | TAKES_PAGES | TAKES_ROOM, NEW_USAGE, "an empty volume"},
};
#define COMMANDS (sizeof commands / sizeof commands[0])

static void print_command(const struct command *c) {
    static const struct {
        int takes;
        const char *words;
    } lines[] = {
        {0, "--json     one object on standard output, for a program"},
        {TAKES_OUT, "-o OUT     where to; - is standard output"},
        {TAKES_FORCE, "--force    replaces a file that exists"},
        {TAKES_TEXT, "--raw      the 244 bytes as they are"},
        {TAKES_TEXT, "--hex      the 244 bytes as hexadecimal digits"},
        {TAKES_PAGES, "--pages P  1 to 64"},
        {TAKES_ROOM, "--slots B  0 to 128 backups; one more than pages is a good number"},
        {TAKES_ROOM, "--log L    1 to 1,024 log records"},
        {TAKES_ROOM, "--notes N  0 to 1,024 notes"},
        {TAKES_DO, "--do       makes the calls on the file itself, until there is nothing to do"},
    };
    printf("usage: pagestore %s\n\n  %s\n\n", c->usage, c->does);
    for (size_t i = 0; i < sizeof lines / sizeof lines[0]; i++) {
        if ((lines[i].takes & ~c->takes) == 0) {
            printf("  %s\n", lines[i].words);
        }
    }
}

static void print_help(FILE *to) {
    fprintf(to, "usage: pagestore COMMAND [OPTIONS] FILE ...\n\n");
    for (size_t i = 0; i < COMMANDS; i++) {
        fprintf(to, "  %-47s %s\n", commands[i].usage, commands[i].does);
    }
    fprintf(to, "\n  --help (also behind a command), --version, --json. The name - is standard input or output.\n"
                "  Options stand before or after the file; behind -- all words are files.\n"
                "  Exit status: 0 all well; 1 something was found; 2 refused or wrong use; 3 the system failed.\n");
}

static const struct command *find_command(const char *name) {
    for (size_t i = 0; i < COMMANDS; i++) {
        if (strcmp(commands[i].name, name) == 0) {
            return &commands[i];
        }
    }
    return NULL;
}

static int wrong_use(const struct command *c, const char *word, const char *why) {
    fprintf(stderr, "pagestore %s: ", c->name);
    print_line(stderr, (const uint8_t *)word, strlen(word));
    fprintf(stderr, "%s%s\nusage: pagestore %s\n", word[0] != '\0' ? ": " : "", why, c->usage);
    return NOT_DONE;
}

/* An option without a value. */
static bool take_flag(struct request *r, int takes, const char *word) {
    const struct {
        const char *name;
        bool *flag;
        int needs;
    } flags[] = {{"--json", &r->json, 0},
                 {"--force", &r->force, TAKES_FORCE},
                 {"--raw", &r->raw, TAKES_TEXT},
                 {"--hex", &r->hex, TAKES_TEXT},
                 {"--do", &r->perform, TAKES_DO}};
    for (size_t i = 0; i < sizeof flags / sizeof flags[0]; i++) {
        if (strcmp(word, flags[i].name) == 0 && (flags[i].needs & ~takes) == 0) {
            *flags[i].flag = true;
            return true;
        }
    }
    return false;
}

/* The option that counts something, if the command takes it: its place, or COUNTS. */
static enum count which_count(const char *word, int takes) {
    static const struct {
        const char *name;
        int needs;
    } counts[COUNTS] = {
        {"--pages", TAKES_PAGES}, {"--slots", TAKES_ROOM}, {"--log", TAKES_ROOM}, {"--notes", TAKES_ROOM}};
    int i = 0;
    while (i < COUNTS && (strcmp(word, counts[i].name) != 0 || (counts[i].needs & ~takes) != 0)) {
        i++;
    }
    return (enum count)i;
}

/* An option with its value; ALL_WELL, or the status of a wrong use. */
static int take_value(struct request *r, const struct command *c, const char *word, const char *value) {
    enum count i = which_count(word, c->takes);
    bool out = (c->takes & TAKES_OUT) && strcmp(word, "-o") == 0;
    if (!out && i == COUNTS) {
        return wrong_use(c, word, "no such option");
    }
    if (value == NULL) {
        return wrong_use(c, word, "its value is missing");
    }
    if (out) {
        r->out = value;
        return ALL_WELL;
    }
    r->given[i] = true;
    return to_number(value, &r->counts[i]) ? ALL_WELL : wrong_use(c, value, "not a number");
}

/* Takes a command's words apart; ALL_WELL, or the status of a wrong use. */
static int take_words(struct request *r, const struct command *c, int count, char **words) {
    int taken = 0, status = ALL_WELL;
    bool only_files = false;
    for (int i = 0; i < count && status == ALL_WELL; i++) {
        const char *word = words[i];
        bool option = !only_files && word[0] == '-' && word[1] != '\0';
        if (option && strcmp(word, "--") == 0) {
            only_files = true;
        } else if (option && !take_flag(r, c->takes, word)) {
            status = take_value(r, c, word, i + 1 < count ? words[i + 1] : NULL);
            i++;
        } else if (!option && taken == c->words) {
            status = wrong_use(c, word, "one word too many");
        } else if (!option) {
            r->words[taken++] = word;
        }
    }
    if (status == ALL_WELL && taken < c->words) {
        return wrong_use(c, "", taken == 0 ? "a file is missing" : "a word is missing");
    }
    return status == ALL_WELL && (c->takes & TAKES_OUT) && r->out == NULL ? wrong_use(c, "", "-o OUT is missing")
                                                                          : status;
}

static bool asks_for_help(int count, char **words) {
    for (int i = 0; i < count && strcmp(words[i], "--") != 0; i++) {
        if (strcmp(words[i], "--help") == 0) {
            return true;
        }
    }
    return false;
}

int run_command(int count, char **words) {
    struct request r = {0};
    if (count < 1 || strcmp(words[0], "--help") == 0) {
        print_help(count < 1 ? stderr : stdout);
        return count < 1 ? NOT_DONE : ALL_WELL;
    }
    if (strcmp(words[0], "--version") == 0) {
        uint32_t v = pagestore_version();
        printf("pagestore %u.%u.%u\n", v / 10000, v / 100 % 100, v % 100);
        return ALL_WELL;
    }
    const struct command *c = find_command(words[0]);
    if (c == NULL) {
        return say(words[0], "no such command; pagestore --help lists them");
    }
    if (asks_for_help(count - 1, words + 1)) {
        print_command(c);
        return ALL_WELL;
    }
    int status = take_words(&r, c, count - 1, words + 1);
    return status == ALL_WELL ? c->run(&r) : status;
}

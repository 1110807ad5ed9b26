/* What the tool says: names of classes, starts and kinds, refusals with their sentence, text that is safe to show. */
#include "tool.h"

#include <errno.h>
#include <string.h>

static void print_file(const char *name) {
    fprintf(stderr, "pagestore: ");
    print_line(stderr, (const uint8_t *)name, strlen(name));
    fprintf(stderr, ": ");
}

/* A complaint of the tool's own: wrong use, or a file that cannot be what was asked for. */
int say(const char *name, const char *words) {
    print_file(name);
    fprintf(stderr, "%s\n", words);
    return NOT_DONE;
}

/* What the system said last. */
int say_error(const char *name) {
    const char *words = strerror(errno);
    print_file(name);
    fprintf(stderr, "%s\n", words);
    return SYSTEM_FAILED;
}

int say_refused(const char *name, uint32_t answer) {
    print_file(name);
    fprintf(stderr, "refused %u: %s\n", (unsigned)answer, pagestore_text(answer));
    return NOT_DONE;
}

const char *class_word(uint32_t number) {
    static const char *const words[] = {"?", "GOOD", "BEHIND", "STALE", "FAILED", "AHEAD"};
    return words[number <= PAGESTORE_AHEAD ? number : 0];
}

const char *start_word(uint32_t number) {
    static const char *const words[] = {"?", "OWN", "BACKUP", "FORMAT"};
    return words[number <= PAGESTORE_FROM_FORMAT ? number : 0];
}

const char *heading_word(uint32_t heading) {
    return heading == PAGESTORE_HEADING_SECOND ? "second" : heading == PAGESTORE_HEADING_FIRST ? "first" : "carry";
}

const char *kind_word(uint32_t number) {
    static const char *const words[] = {"?", "FORMAT", "PUT", "SLIDE"};
    return words[number <= PAGESTORE_SLIDE ? number : 0];
}

const char *slot_word(uint32_t is) {
    return is == EMPTY_SLOT ? "EMPTY" : is == WHOLE_SLOT ? "WHOLE" : "TORN";
}

/* Zeros at the end are no text. */
size_t text_length(const uint8_t *bytes, size_t length) {
    while (length > 0 && bytes[length - 1] == 0) {
        length--;
    }
    return length;
}

/* How many bytes of valid UTF-8 start here: 0 where they are none. */
size_t text_character(const uint8_t *bytes, size_t length) {
    uint8_t lead = bytes[0];
    size_t size = lead < 0x80 ? 1 : lead >= 0xc2 && lead < 0xe0 ? 2 : lead >= 0xe0 && lead < 0xf0 ? 3 : 0;
    if (lead >= 0xf0 && lead < 0xf5) {
        size = 4;
    }
    for (size_t i = 1; i < size; i++) {
        if (i >= length || (bytes[i] & 0xc0) != 0x80) {
            return 0;
        }
    }
    bool low = lead == 0xe0 && bytes[1] < 0xa0;
    bool surrogate = lead == 0xed && bytes[1] >= 0xa0;
    bool outside = size == 4 && ((lead == 0xf0 && bytes[1] < 0x90) || (lead == 0xf4 && bytes[1] >= 0x90));
    return low || surrogate || outside ? 0 : size;
}

static bool is_control(const uint8_t *bytes, size_t size) {
    return (size == 1 && (bytes[0] < 0x20 || bytes[0] == 0x7f)) || (size == 2 && bytes[0] == 0xc2 && bytes[1] < 0xa0);
}

/* For a terminal: a broken character is a point, and so is a control character but those that are kept. */
static void print_kept(FILE *to, const uint8_t *bytes, size_t length, const char *kept) {
    for (size_t i = 0; i < length;) {
        size_t size = text_character(bytes + i, length - i);
        bool keep = size == 1 && bytes[i] != 0 && strchr(kept, bytes[i]) != NULL;
        if (size == 0 || (is_control(bytes + i, size) && !keep)) {
            fputc('.', to);
        } else {
            fwrite(bytes + i, 1, size, to);
        }
        i += size > 0 ? size : 1;
    }
}

void print_text(FILE *to, const uint8_t *bytes, size_t length) {
    print_kept(to, bytes, length, "\n\t");
}

/* As part of a line: without the new line at its end, others are points. */
void print_line(FILE *to, const uint8_t *bytes, size_t length) {
    print_kept(to, bytes, length > 0 && bytes[length - 1] == '\n' ? length - 1 : length, "");
}

/* A JSON string; a byte that is no UTF-8 becomes U+FFFD. */
void print_json_string(FILE *to, const uint8_t *bytes, size_t length) {
    fputc('"', to);
    for (size_t i = 0; i < length;) {
        size_t size = text_character(bytes + i, length - i);
        if (size == 0) {
            fputs("\\ufffd", to);
        } else if (size == 1 && (bytes[i] < 0x20 || bytes[i] == 0x7f)) {
            fprintf(to, "\\u%04x", bytes[i]);
        } else if (bytes[i] == '"' || bytes[i] == '\\') {
            fprintf(to, "\\%c", bytes[i]);
        } else {
            fwrite(bytes + i, 1, size, to);
        }
        i += size > 0 ? size : 1;
    }
    fputc('"', to);
}

void print_json_name(FILE *to, const char *name) {
    print_json_string(to, (const uint8_t *)name, strlen(name));
}

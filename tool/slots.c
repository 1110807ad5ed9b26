/* log, notes: what stands in each slot, also where the volume is refused 17 or 18. */
#include "tool.h"

/* What a restart says of the volume, behind the slots: a refusal is FOUND, and told. */
static int judged(const struct input *in) {
    struct store s;
    return restart(&s, in) == ALL_WELL ? ALL_WELL : FOUND;
}

static void print_record(const struct input *in, const struct geometry *g, uint32_t slot) {
    struct record x = record_in(in, slot);
    if (x.is != WHOLE_SLOT) {
        printf("%u %s\n", slot, slot_word(x.is));
        return;
    }
    printf("%u record %u, page %u, after %u, ", slot, x.number, x.page, x.previous);
    print_change(&x, payload_in(in, g, slot));
}

static void print_record_json(const struct input *in, uint32_t slot) {
    struct record x = record_in(in, slot);
    printf("%s{\"slot\": %u, \"is\": \"%s\"", slot > 1 ? ", " : "", slot, slot_word(x.is));
    if (x.is == WHOLE_SLOT) {
        printf(", \"number\": %u, \"previous\": %u, \"page\": %u, \"kind\": \"%s\", \"length\": %u, \"offset\": %u, "
               "\"fill\": %u",
               x.number, x.previous, x.page, kind_word(x.kind), x.length, x.offset, x.fill);
    }
    printf("}");
}

int run_log(const struct request *r) {
    static struct input in;
    struct geometry g;
    int status = open_volume(&in, &g, r->words[0]);
    if (status != ALL_WELL) {
        return status;
    }
    printf(r->json ? "{\"log\": [" : "");
    for (uint32_t slot = 1; slot <= g.records; slot++) {
        if (r->json) {
            print_record_json(&in, slot);
        } else {
            print_record(&in, &g, slot);
        }
    }
    printf(r->json ? "]}\n" : "");
    return judged(&in);
}

static const char *note_word(uint32_t kind) {
    return kind == WRITTEN_NOTE ? "WRITTEN" : kind == BACKUP_NOTE ? "BACKED UP" : "?";
}

static void print_note(const struct input *in, uint32_t slot) {
    struct note x = note_in(in, slot);
    if (x.is != WHOLE_SLOT) {
        printf("%u %s\n", slot, slot_word(x.is));
        return;
    }
    printf("%u note %u, page %u %s at record %u", slot, x.number, x.page, note_word(x.kind), x.lsn);
    if (x.kind != WRITTEN_NOTE) {
        printf(" in backup slot %u", x.slot);
    }
    printf("\n");
}

static void print_note_json(const struct input *in, uint32_t slot) {
    struct note x = note_in(in, slot);
    printf("%s{\"slot\": %u, \"is\": \"%s\"", slot > 1 ? ", " : "", slot, slot_word(x.is));
    if (x.is == WHOLE_SLOT) {
        printf(", \"number\": %u, \"page\": %u, \"kind\": \"%s\", \"backupSlot\": %u, \"record\": %u", x.number, x.page,
               note_word(x.kind), x.slot, x.lsn);
    }
    printf("}");
}

int run_notes(const struct request *r) {
    static struct input in;
    struct geometry g;
    int status = open_volume(&in, &g, r->words[0]);
    if (status != ALL_WELL) {
        return status;
    }
    printf(r->json ? "{\"notes\": [" : "");
    for (uint32_t slot = 1; slot <= g.notes; slot++) {
        (r->json ? print_note_json : print_note)(&in, slot);
    }
    printf(r->json ? "]}\n" : "");
    return judged(&in);
}

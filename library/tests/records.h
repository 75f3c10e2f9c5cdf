/* What the tests of records share: the text that was handed out, and the files in which piperun checks it. */
#ifndef RECORDS_H
#define RECORDS_H

#include "check.h"

/* All that a kernel handed out so far. */
struct record {
    char *text;
    size_t length, room;
};

static inline void keep_bytes(struct record *record, const uint8_t *bytes, size_t count)
{
    if (record->room - record->length < count) {
        record->room = 2 * (record->length + count);
        record->text = needed(realloc(record->text, record->room));
    }
    memcpy(record->text + record->length, bytes, count);
    record->length += count;
}

/* Takes what a kernel has of its record, in pieces of at most so many bytes. Returns false if there was no memory for it. */
static inline bool drain(bindingclay clay, struct record *record, size_t piece)
{
    uint8_t bytes[4096];
    for (;;) {
        bindingclay_answer got = bindingclay_recorded(clay, bytes, piece);
        if (got.kind == BINDINGCLAY_NO_MEMORY)
            return false;
        if (!HOLDS(got.kind == BINDINGCLAY_DONE && got.value <= piece) || got.value == 0)
            return true;
        keep_bytes(record, bytes, got.value);
    }
}

/* Writes a record to FOLDER/NAME.record, and to FOLDER/list its name and how many replies it has. */
static inline void save(const struct record *record, const char *folder, const char *name, long replies)
{
    char path[4096];
    snprintf(path, sizeof path, "%s/%s.record", folder, name);
    FILE *file = needed(fopen(path, "wb"));
    bool is_whole = fwrite(record->text, 1, record->length, file) == record->length;
    HOLDS(fclose(file) == 0 && is_whole);
    snprintf(path, sizeof path, "%s/list", folder);
    file = needed(fopen(path, "ab"));
    fprintf(file, "%s %ld\n", name, replies);
    HOLDS(fclose(file) == 0);
}

#endif

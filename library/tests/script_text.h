/* The texts of answers, as a script's output has them. Its includer defines _GNU_SOURCE. */
#ifndef SCRIPT_TEXT_H
#define SCRIPT_TEXT_H

#include "script_calls.h"

/* The text of one answer, without a line feed. */
static char text[2 * (size_t)MOST_FILE + 10000];
static size_t text_length;

static void say(const char *word)
{
    size_t length = strlen(word);
    memcpy(text + text_length, word, length + 1);
    text_length += length;
}

static void say_number(const char *word, uint64_t value)
{
    text_length += (size_t)sprintf(text + text_length, "%s %" PRIu64, word, value);
}

/* The names of bits in the order of a table, joined by commas, or -. */
static void say_bits(const struct named *table, uint32_t bits)
{
    bool any = false;
    for (const struct named *row = table; row->name != NULL; row++)
        if ((bits & row->bits) != 0) {
            say(any ? "," : " ");
            say(row->name);
            any = true;
        }
    if (!any)
        say(" -");
}

/* Whether the script is of version 2, so that bytes are told by runs. */
static bool shows_runs;

static void say_digits(const uint8_t *from, size_t count)
{
    static const char DIGITS[] = "0123456789abcdef";
    for (size_t i = 0; i < count; i++) {
        text[text_length++] = DIGITS[from[i] >> 4];
        text[text_length++] = DIGITS[from[i] & 15];
    }
    text[text_length] = '\0';
}

/* How many bytes at the front are equal. */
static size_t run_of(const uint8_t *from, size_t count)
{
    size_t length = 1;
    while (length < count && from[length] == from[0])
        length++;
    return length;
}

/* Pieces joined by +: one for each run of at least four equal bytes, and digits for what is between two of these. */
static void say_pieces(const uint8_t *from, size_t count)
{
    const uint8_t *end = from + count;
    while (from < end) {
        const uint8_t *digits = from;
        size_t run = 0;
        while (from < end && (run = run_of(from, (size_t)(end - from))) < 4)
            from += run;
        say_digits(digits, (size_t)(from - digits));
        if (from == end)
            return;
        if (from > digits)
            say("+");
        text_length += (size_t)sprintf(text + text_length, "%zu*", run);
        say_digits(from, 1);
        from += run;
        if (from < end)
            say("+");
    }
}

static void say_bytes(const char *word, size_t count)
{
    say(word);
    say(count == 0 ? " -" : " ");
    if (shows_runs)
        say_pieces(into, count);
    else
        say_digits(into, count);
}

static void say_flags(uint64_t flags)
{
    say("flags ");
    say((flags & O_ACCMODE) == O_RDONLY ? "r" : (flags & O_ACCMODE) == O_WRONLY ? "w" : "rw");
    say_bits(STATUS_FLAGS, (uint32_t)flags & ~(uint32_t)O_ACCMODE);
}

static void say_masks(uint64_t count)
{
    say_number("masks", count);
    for (size_t i = 0; i < entry_count; i++)
        say_bits(EVENTS, (uint16_t)entries[i].revents);
}

static void say_done(enum told told)
{
    static const char *const WORDS[]
        = { [PID] = "pid", [FD] = "fd", [COUNT] = "count", [OFFSET] = "offset", [SIZE] = "size" };
    switch (told) {
    case NOTHING:
        say("ok");
        break;
    case FDS:
        text_length += (size_t)sprintf(text + text_length, "fds %d %d", ends.read_end, ends.write_end);
        break;
    case DATA:
        say_bytes("data", answer.value);
        break;
    case FILE_DATA:
        say_bytes("file", answer.value);
        break;
    case FLAGS:
        say_flags(answer.value);
        break;
    case MASKS:
        say_masks(answer.value);
        break;
    default:
        say_number(WORDS[told], answer.value);
    }
    if (answer.sigpipe)
        say(" sigpipe");
}

static const struct named ERRORS[] = { { "EPERM", EPERM }, { "ENOENT", ENOENT }, { "EINTR", EINTR }, { "ENXIO", ENXIO },
    { "EBADF", EBADF }, { "EAGAIN", EAGAIN }, { "EBUSY", EBUSY }, { "EEXIST", EEXIST }, { "EINVAL", EINVAL },
    { "ENFILE", ENFILE }, { "EMFILE", EMFILE }, { "EFBIG", EFBIG }, { "ENOSPC", ENOSPC }, { "ESPIPE", ESPIPE }, { "EPIPE", EPIPE },
    { "ENAMETOOLONG", ENAMETOOLONG }, { "EOVERFLOW", EOVERFLOW }, { NULL, 0 } };

static void say_fault(enum told told)
{
    if (told == FILE_DATA && answer.error == ENOENT) {
        say("no file");
        return;
    }
    for (const struct named *row = ERRORS; row->name != NULL; row++)
        if ((int32_t)row->bits == answer.error)
            say(row->name);
    if (answer.sigpipe)
        say(" sigpipe");
}

/* Puts the text of the last answer into text; of a call that waits its number is given on its own, as the script counts. */
static void say_answer(enum told told, uint64_t parked_number)
{
    text_length = 0;
    text[0] = '\0';
    switch (answer.kind) {
    case BINDINGCLAY_DONE:
        say_done(told);
        break;
    case BINDINGCLAY_FAULT:
        say_fault(told);
        break;
    case BINDINGCLAY_PARKED:
        say_number("parked", parked_number);
        break;
    case BINDINGCLAY_NO_PROCESS:
        say("no process");
        break;
    case BINDINGCLAY_NO_CALL:
        say("no call");
        break;
    case BINDINGCLAY_CALLS_SPENT:
        say("calls spent");
        break;
    default:
        say_number("kind", answer.kind);
    }
}

#endif

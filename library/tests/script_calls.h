/* The words of a script's line, and the calls that they ask for. Its includer defines _GNU_SOURCE. */
#ifndef SCRIPT_CALLS_H
#define SCRIPT_CALLS_H

#include "script_files.h"

#include <fcntl.h>
#include <poll.h>

enum { MOST_FILE = BINDINGCLAY_MOST_FILE_BYTES };

/* The revents of an entry of a poll before the call. */
enum { UNWRITTEN = 0x5555 };

/* What the value of an answer tells. */
enum told { NOTHING, PID, FD, FDS, COUNT, DATA, OFFSET, FLAGS, SIZE, MASKS, FILE_DATA };

static bindingclay clay;

/* The words of the line behind the name of its call, and how many there are. */
static char *words[MOST_WORDS];
static int word_count;

/* What the last call wrote. */
static uint8_t into[MOST_FILE];
static bindingclay_ends ends;
static bindingclay_pollfd entries[MOST_WORDS];
static size_t entry_count;

static uint8_t bytes[MOST_FILE];
static size_t byte_count;

/* ---- Words ---- */

static int32_t number(const char *word)
{
    return (int32_t)strtoll(word, NULL, 10);
}

/* For how many bytes of a read there is to be room: no read gives more than MOST_FILE. */
static size_t room_of(const char *word)
{
    uint32_t size = (uint32_t)number(word);
    return size < MOST_FILE ? size : MOST_FILE;
}

/* How many bytes a splice or a tee is asked for. C refuses a greater number, and no more move. */
static uint32_t len_of(const char *word)
{
    uint32_t len = (uint32_t)number(word);
    return len < BINDINGCLAY_MOST_SIZE ? len : BINDINGCLAY_MOST_SIZE;
}

static int hex_digit(char digit)
{
    const char *digits = "0123456789abcdef", *at = strchr(digits, digit | 0x20);
    return at == NULL ? 0 : (int)(at - digits);
}

static uint8_t hex_byte(const char *digits)
{
    return (uint8_t)(hex_digit(digits[0]) * 16 + hex_digit(digits[1]));
}

/* Adds the bytes of a piece to bytes: N*hh or digits. */
static void take_piece(const char *piece, size_t length)
{
    const char *star = memchr(piece, '*', length);
    if (star != NULL) {
        size_t times = strtoull(piece, NULL, 10);
        memset(bytes + byte_count, hex_byte(star + 1), times);
        byte_count += times;
        return;
    }
    for (size_t i = 0; i < length; i += 2)
        bytes[byte_count++] = hex_byte(piece + i);
}

/* Puts the bytes of a word into bytes: -, or pieces joined by +, of which version 1 has one. */
static void take_bytes(const char *word)
{
    byte_count = 0;
    if (strcmp(word, "-") == 0)
        return;
    for (;; word++) {
        size_t length = strcspn(word, "+");
        take_piece(word, length);
        word += length;
        if (*word == '\0')
            return;
    }
}

/* Puts the bytes of a name into bytes: -, or bytes of which %hh stands for hh. */
static void take_name(const char *word)
{
    byte_count = 0;
    if (strcmp(word, "-") == 0)
        return;
    while (*word != '\0') {
        bool is_coded = *word == '%';
        bytes[byte_count++] = is_coded ? hex_byte(word + 1) : (uint8_t)*word;
        word += is_coded ? 3 : 1;
    }
}

struct named {
    const char *name;
    uint32_t bits;
};

static const struct named OPEN_FLAGS[] = { { "creat", O_CREAT }, { "excl", O_EXCL }, { "trunc", O_TRUNC },
    { "append", O_APPEND }, { "nonblock", O_NONBLOCK }, { NULL, 0 } };
/* Those of a pipe, and those that the text of a reply names, in its order. */
static const struct named PIPE_FLAGS[] = { { "nonblock", O_NONBLOCK }, { "direct", BINDINGCLAY_O_DIRECT }, { NULL, 0 } };
static const struct named STATUS_FLAGS[]
    = { { "append", O_APPEND }, { "nonblock", O_NONBLOCK }, { "direct", BINDINGCLAY_O_DIRECT }, { NULL, 0 } };
static const struct named SPLICE_FLAGS[] = { { "move", SPLICE_F_MOVE }, { "nonblock", SPLICE_F_NONBLOCK },
    { "more", SPLICE_F_MORE }, { "gift", SPLICE_F_GIFT }, { NULL, 0 } };
static const struct named EVENTS[] = { { "in", POLLIN }, { "out", POLLOUT }, { "err", POLLERR }, { "hup", POLLHUP },
    { "nval", POLLNVAL }, { NULL, 0 } };
static const struct named MODES[] = { { "r", O_RDONLY }, { "w", O_WRONLY }, { "rw", O_RDWR }, { NULL, 0 } };
static const struct named WHENCES[] = { { "set", SEEK_SET }, { "cur", SEEK_CUR }, { "end", SEEK_END }, { NULL, 0 } };

/* The bits of names that are joined by commas. */
static uint32_t bits_of(const struct named *table, const char *joined)
{
    uint32_t bits = 0;
    while (*joined != '\0') {
        size_t length = strcspn(joined, ",");
        for (const struct named *row = table; row->name != NULL; row++)
            if (strlen(row->name) == length && memcmp(row->name, joined, length) == 0)
                bits |= row->bits;
        joined += length + (joined[length] == ',');
    }
    return bits;
}

/* The flags of the word at a place, if it is there. */
static uint32_t flags_at(const struct named *table, int place)
{
    return place < word_count ? bits_of(table, words[place]) : 0;
}

/* ---- Calls: each is given a pid, makes its call of the words, and says what its answer tells ---- */

static bindingclay_answer answer;

static enum told call_pipe(uint32_t pid)
{
    uint32_t flags = flags_at(PIPE_FLAGS, 0);
    if ((flags & BINDINGCLAY_O_DIRECT) != 0)
        answer = bindingclay_pipe2(clay, pid, flags, &ends);
    else
        answer = bindingclay_pipe(clay, pid, flags != 0, &ends);
    return FDS;
}

static enum told call_mkfifo(uint32_t pid)
{
    take_name(words[0]);
    answer = bindingclay_mkfifo(clay, pid, bytes, byte_count);
    return NOTHING;
}

static enum told call_open(uint32_t pid)
{
    take_name(words[0]);
    answer = bindingclay_open_name(clay, pid, bytes, byte_count, bits_of(MODES, words[1]) | flags_at(OPEN_FLAGS, 2));
    return FD;
}

static enum told call_unlink(uint32_t pid)
{
    take_name(words[0]);
    answer = bindingclay_unlink(clay, pid, bytes, byte_count);
    return NOTHING;
}

static enum told call_read(uint32_t pid)
{
    answer = bindingclay_read(clay, pid, number(words[0]), into, room_of(words[1]));
    return DATA;
}

static enum told call_write(uint32_t pid)
{
    take_bytes(words[1]);
    answer = bindingclay_write(clay, pid, number(words[0]), bytes, byte_count);
    return COUNT;
}

static enum told call_splice(uint32_t pid)
{
    uint64_t from = strtoull(words[1], NULL, 10), to = strtoull(words[3], NULL, 10);
    answer = bindingclay_splice(clay, pid, number(words[0]), strcmp(words[1], "-") == 0 ? NULL : &from, number(words[2]),
        strcmp(words[3], "-") == 0 ? NULL : &to, len_of(words[4]), flags_at(SPLICE_FLAGS, 5));
    return COUNT;
}

static enum told call_tee(uint32_t pid)
{
    answer = bindingclay_tee(
        clay, pid, number(words[0]), number(words[1]), len_of(words[2]), flags_at(SPLICE_FLAGS, 3));
    return COUNT;
}

static enum told call_poll(uint32_t pid)
{
    entry_count = (size_t)word_count - 1;
    for (size_t i = 0; i < entry_count; i++)
        entries[i] = (bindingclay_pollfd){ .fd = number(words[i + 1]),
            .events = (int16_t)bits_of(EVENTS, strchr(words[i + 1], ':') + 1),
            .revents = UNWRITTEN };
    answer = bindingclay_poll(clay, pid, entries, entry_count, strcmp(words[0], "wait") == 0);
    return MASKS;
}

static enum told call_dup(uint32_t pid)
{
    answer = bindingclay_dup(clay, pid, number(words[0]));
    return FD;
}

static enum told call_dup2(uint32_t pid)
{
    answer = bindingclay_dup2(clay, pid, number(words[0]), number(words[1]));
    return FD;
}

static enum told call_dup_fd(uint32_t pid)
{
    answer = bindingclay_dup_fd(clay, pid, number(words[0]), number(words[1]));
    return FD;
}

static enum told call_close(uint32_t pid)
{
    answer = bindingclay_close(clay, pid, number(words[0]));
    return NOTHING;
}

static enum told call_lseek(uint32_t pid)
{
    answer = bindingclay_lseek(
        clay, pid, number(words[0]), strtoll(words[1], NULL, 10), (int32_t)bits_of(WHENCES, words[2]));
    return OFFSET;
}

static enum told call_get_fl(uint32_t pid)
{
    answer = bindingclay_get_fl(clay, pid, number(words[0]));
    return FLAGS;
}

static enum told call_set_fl(uint32_t pid)
{
    answer = bindingclay_set_fl(clay, pid, number(words[0]), bits_of(OPEN_FLAGS, words[1]));
    return NOTHING;
}

static enum told call_get_pipe_sz(uint32_t pid)
{
    answer = bindingclay_get_pipe_sz(clay, pid, number(words[0]));
    return SIZE;
}

static enum told call_set_pipe_sz(uint32_t pid)
{
    answer = bindingclay_set_pipe_sz(clay, pid, number(words[0]), (uint32_t)number(words[1]));
    return SIZE;
}

static enum told call_fork(uint32_t pid)
{
    answer = bindingclay_fork(clay, pid);
    return PID;
}

static enum told call_exit(uint32_t pid)
{
    answer = bindingclay_exit(clay, pid);
    return NOTHING;
}

/* The calls of a process, with the least number of words behind the name. */
static const struct call {
    const char *name;
    int words;
    enum told (*make)(uint32_t pid);
} CALLS[] = { { "pipe", 0, call_pipe }, { "mkfifo", 1, call_mkfifo }, { "open", 2, call_open }, { "unlink", 1, call_unlink },
    { "read", 2, call_read }, { "write", 2, call_write }, { "splice", 5, call_splice }, { "tee", 3, call_tee },
    { "poll", 1, call_poll }, { "dup", 1, call_dup }, { "dup2", 2, call_dup2 }, { "dupfd", 2, call_dup_fd },
    { "close", 1, call_close }, { "lseek", 3, call_lseek }, { "getfl", 1, call_get_fl }, { "setfl", 2, call_set_fl },
    { "getsz", 1, call_get_pipe_sz }, { "setsz", 2, call_set_pipe_sz }, { "fork", 0, call_fork }, { "exit", 0, call_exit } };

#endif

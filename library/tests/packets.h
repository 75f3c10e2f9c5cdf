/* What the programs of tests on packet pipes share. Its includer defines _GNU_SOURCE. */
#ifndef PACKETS_H
#define PACKETS_H

#include "check.h"

#include <fcntl.h>
#include <poll.h>

enum { PACKET = BINDINGCLAY_PACKET_BYTES, FIRST_CAPACITY = 65536, PIPE_READ = 0, PIPE_WRITE = 1, MOST_ROOM = 70000 };
enum { DIRECT = BINDINGCLAY_O_DIRECT };

/* The bytes that are written, of which no two packets have the same. */
static inline uint8_t byte_at(size_t i)
{
    return (uint8_t)(i % 251 + i / 65521);
}

/* A write of those from one place on. */
static inline bindingclay_answer put_from(bindingclay clay, uint32_t pid, int32_t fd, size_t from, size_t size)
{
    uint8_t *bytes = needed(malloc(size + 1));
    for (size_t i = 0; i < size; i++)
        bytes[i] = byte_at(from + i);
    bindingclay_answer answer = bindingclay_write(clay, pid, fd, bytes, size);
    free(bytes);
    return answer;
}

static inline bool has_from(const char *file, int line, bindingclay_answer got, const uint8_t *into, size_t room, size_t from, size_t size)
{
    if (!answers(file, line, "a read", got, an_answer(BINDINGCLAY_DONE, size, 0, false)))
        return false;
    bool as_wanted = true;
    for (size_t i = 0; i <= room; i++)
        as_wanted = as_wanted && into[i] == (i < size ? byte_at(from + i) : UNTOUCHED);
    return holds(file, line, "the bytes of a read", as_wanted);
}

/* Whether a read of room bytes gives so many from one place on. */
static inline bool reads_from(
    const char *file, int line, bindingclay clay, uint32_t pid, int32_t fd, size_t room, size_t from, size_t size)
{
    uint8_t *into = needed(malloc(room + 1));
    memset(into, UNTOUCHED, room + 1);
    bindingclay_answer got = bindingclay_read(clay, pid, fd, into, room);
    bool as_wanted = has_from(file, line, got, into, room, from, size);
    free(into);
    return as_wanted;
}

#define READS_FROM(clay, pid, fd, room, from, size) reads_from(__FILE__, __LINE__, clay, pid, fd, room, from, size)

static inline bindingclay_ends new_packets(const char *file, int line, bindingclay clay, uint32_t pid, uint32_t flags)
{
    bindingclay_ends ends = { -1, -1 };
    answers(file, line, "bindingclay_pipe2", bindingclay_pipe2(clay, pid, flags, &ends), an_answer(BINDINGCLAY_DONE, 0, 0, false));
    return ends;
}

/* The ends of a new packet pipe of a process. */
#define NEW_PACKETS(clay, pid, flags) new_packets(__FILE__, __LINE__, clay, pid, (flags) | DIRECT)

/* A kernel with process 1, which has a packet pipe. */
static inline bindingclay kernel_with_packets(uint32_t flags)
{
    bindingclay clay = kernel_with_process();
    bindingclay_ends ends = NEW_PACKETS(clay, 1, flags);
    HOLDS(ends.read_end == PIPE_READ && ends.write_end == PIPE_WRITE);
    return clay;
}

/* Whether a poll that doesn't wait tells these events of a descriptor. */
static inline bool polls_as(const char *file, int line, bindingclay clay, int32_t fd, int16_t events, int16_t found)
{
    bindingclay_pollfd entry = { .fd = fd, .events = events, .revents = -1 };
    bindingclay_answer got = bindingclay_poll(clay, 1, &entry, 1, false);
    return answers(file, line, "bindingclay_poll", got, an_answer(BINDINGCLAY_DONE, found != 0, 0, false))
        && holds(file, line, "the revents", entry.revents == found);
}

#define POLLS(clay, fd, events, found) polls_as(__FILE__, __LINE__, clay, fd, events, found)

#endif

/* What the programs of tests share. A check that fails prints one line, and the program goes on; end() is its exit status. */
#ifndef CHECK_H
#define CHECK_H

#include "bindingclay.h"

#include <errno.h>
#include <inttypes.h>
#include <stdio.h>
#include <stdlib.h>
#include <string.h>

/* What stands where nothing may be written. */
enum { UNTOUCHED = 0xa5 };

static int checks_failed;

/* Whether an answer is the wanted one; where it isn't, a line. */
static inline bool answers(const char *file, int line, const char *call, bindingclay_answer got, bindingclay_answer wanted)
{
    if (got.kind == wanted.kind && got.value == wanted.value && got.error == wanted.error && got.sigpipe == wanted.sigpipe
        && got.moved == wanted.moved)
        return true;
    checks_failed++;
    printf("%s:%d: %s: kind %d, value %" PRIu64 ", error %d, sigpipe %d, moved %d, and not %d, %" PRIu64 ", %d, %d, %d\n", file, line,
        call, got.kind, got.value, got.error, got.sigpipe, got.moved, wanted.kind, wanted.value, wanted.error, wanted.sigpipe, wanted.moved);
    return false;
}

static inline bindingclay_answer an_answer(uint8_t kind, uint64_t value, int32_t error, bool sigpipe)
{
    return (bindingclay_answer){ .value = value, .error = error, .kind = kind, .sigpipe = sigpipe };
}

/* The answer of a call that waits under a number: of a write that put in some of its bytes, or of a call that moved none. */
static inline bindingclay_answer that_waits(uint64_t number, bool moved)
{
    return (bindingclay_answer){ .value = number, .kind = BINDINGCLAY_PARKED, .moved = moved };
}

#define ANSWERS(call, kind, value, error, sigpipe) \
    answers(__FILE__, __LINE__, #call, call, an_answer(kind, (uint64_t)(value), error, sigpipe))
#define DONE(call, value) ANSWERS(call, BINDINGCLAY_DONE, value, 0, false)
#define DONE_WITH_SIGPIPE(call, value) ANSWERS(call, BINDINGCLAY_DONE, value, 0, true)
#define FAULT(call, number) ANSWERS(call, BINDINGCLAY_FAULT, 0, number, (number) == EPIPE)
#define PARKED(call, number) answers(__FILE__, __LINE__, #call, call, that_waits(number, false))
#define PARKED_WITH_BYTES(call, number) answers(__FILE__, __LINE__, #call, call, that_waits(number, true))
#define SHORT(call, room) ANSWERS(call, BINDINGCLAY_SHORT, room, 0, false)
#define OTHER(call, kind) ANSWERS(call, kind, 0, 0, false)

static inline bool holds(const char *file, int line, const char *what, bool condition)
{
    if (!condition) {
        checks_failed++;
        printf("%s:%d: not so: %s\n", file, line, what);
    }
    return condition;
}

#define HOLDS(condition) holds(__FILE__, __LINE__, #condition, condition)

/* The exit status of a program. */
static inline int end(void)
{
    return checks_failed == 0 ? 0 : 1;
}

/* Ends the program where it can't go on. */
static inline void *needed(void *pointer)
{
    if (pointer == NULL) {
        printf("no memory for the test\n");
        exit(1);
    }
    return pointer;
}

static inline bindingclay new_kernel(uint64_t first_call, uint32_t file_max)
{
    bindingclay clay = { NULL };
    if (!bindingclay_open(first_call, file_max, &clay.kernel)) {
        printf("bindingclay_open: false\n");
        exit(1);
    }
    return clay;
}

/* A kernel with process 1, within limits. */
static inline bindingclay kernel_within(const bindingclay_limits *limits)
{
    bindingclay clay = { NULL };
    if (!bindingclay_open_within(limits, &clay.kernel)) {
        printf("bindingclay_open_within: false\n");
        exit(1);
    }
    DONE(bindingclay_start(clay), 1);
    return clay;
}

/* A kernel with process 1. */
static inline bindingclay kernel_with_process(void)
{
    bindingclay clay = new_kernel(1, BINDINGCLAY_MOST_FILE_BYTES);
    DONE(bindingclay_start(clay), 1);
    return clay;
}

/* Calls whose bytes are a text. */
static inline const uint8_t *bytes_of(const char *text)
{
    return (const uint8_t *)text;
}

static inline bindingclay_answer put(bindingclay clay, uint32_t pid, int32_t fd, const char *text)
{
    return bindingclay_write(clay, pid, fd, bytes_of(text), strlen(text));
}

static inline bindingclay_answer open_text(bindingclay clay, uint32_t pid, const char *name, uint32_t flags)
{
    return bindingclay_open_name(clay, pid, bytes_of(name), strlen(name), flags);
}

static inline bindingclay_answer mkfifo_text(bindingclay clay, uint32_t pid, const char *name)
{
    return bindingclay_mkfifo(clay, pid, bytes_of(name), strlen(name));
}

static inline bindingclay_answer unlink_text(bindingclay clay, uint32_t pid, const char *name)
{
    return bindingclay_unlink(clay, pid, bytes_of(name), strlen(name));
}

/* A write of so many bytes, all of them 'a'. */
static inline bindingclay_answer put_many(bindingclay clay, uint32_t pid, int32_t fd, size_t size)
{
    uint8_t *bytes = needed(malloc(size + 1));
    memset(bytes, 'a', size);
    bindingclay_answer answer = bindingclay_write(clay, pid, fd, bytes, size);
    free(bytes);
    return answer;
}

/* Whether an answer with bytes is DONE with those of a text in the first of size bytes, and the others are untouched. */
static inline bool gives(
    const char *file, int line, const char *call, bindingclay_answer got, const uint8_t *into, size_t size, const char *text)
{
    size_t length = strlen(text);
    if (!answers(file, line, call, got, an_answer(BINDINGCLAY_DONE, length, 0, false)))
        return false;
    bool as_text = memcmp(into, text, length) == 0;
    for (size_t i = length; i < size; i++)
        as_text = as_text && into[i] == UNTOUCHED;
    return holds(file, line, call, as_text);
}

static inline bool reads(const char *file, int line, bindingclay clay, uint32_t pid, int32_t fd, size_t size, const char *text)
{
    uint8_t *into = needed(malloc(size + 1));
    memset(into, UNTOUCHED, size + 1);
    bindingclay_answer got = bindingclay_read(clay, pid, fd, into, size);
    bool as_wanted = gives(file, line, "a read", got, into, size + 1, text);
    free(into);
    return as_wanted;
}

/* A read of size bytes gives those of a text. */
#define READS(clay, pid, fd, size, text) reads(__FILE__, __LINE__, clay, pid, fd, size, text)

static inline bool resumes(const char *file, int line, bindingclay clay, uint64_t number, size_t size, const char *text)
{
    uint8_t *into = needed(malloc(size + 1));
    memset(into, UNTOUCHED, size + 1);
    bindingclay_answer got = bindingclay_resume(clay, number, into, size);
    bool as_wanted = gives(file, line, "a read resumed", got, into, size + 1, text);
    free(into);
    return as_wanted;
}

/* The read of a number, resumed into size bytes, gives those of a text. */
#define RESUMES(clay, number, size, text) resumes(__FILE__, __LINE__, clay, number, size, text)

/* A read whose bytes nobody looks at. */
static inline bindingclay_answer take(bindingclay clay, uint32_t pid, int32_t fd, size_t size)
{
    uint8_t *into = needed(malloc(size + 1));
    bindingclay_answer answer = bindingclay_read(clay, pid, fd, into, size);
    free(into);
    return answer;
}

/* The resumption of a call that gives no bytes. */
static inline bindingclay_answer again(bindingclay clay, uint64_t number)
{
    return bindingclay_resume(clay, number, NULL, 0);
}

/* The regular file of a name has the bytes of a text. */
static inline bool has_file(const char *file, int line, bindingclay clay, const char *name, const char *text)
{
    size_t room = strlen(text) + 1;
    uint8_t *into = needed(malloc(room));
    memset(into, UNTOUCHED, room);
    bindingclay_answer got = bindingclay_file_bytes(clay, bytes_of(name), strlen(name), into, room);
    bool as_wanted = gives(file, line, "bindingclay_file_bytes", got, into, room, text);
    free(into);
    return as_wanted;
}

#define HAS_FILE(clay, name, text) has_file(__FILE__, __LINE__, clay, name, text)

/* The ends of a new pipe of a process, where it is made. */
static inline bindingclay_ends new_pipe(const char *file, int line, bindingclay clay, uint32_t pid, bool nonblock)
{
    bindingclay_ends ends = { -1, -1 };
    answers(file, line, "bindingclay_pipe", bindingclay_pipe(clay, pid, nonblock, &ends), an_answer(BINDINGCLAY_DONE, 0, 0, false));
    return ends;
}

#define NEW_PIPE(clay, pid, nonblock) new_pipe(__FILE__, __LINE__, clay, pid, nonblock)

#endif

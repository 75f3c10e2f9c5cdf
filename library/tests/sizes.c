/* Sizes that are none: each call refuses them before all else, and neither reads nor writes. And the greatest that are sizes. */
#define _GNU_SOURCE
#include "check.h"

#include <fcntl.h>
#include <limits.h>
#include <poll.h>
#include <sys/mman.h>

enum { PAGE = 4096, ROOM = 64 };

static const size_t FOUR_GIB = (size_t)1 << 32;

/* The -1 of a recv that failed, taken for a size; the least that is none; and one whose lower half would be a good one. */
static const size_t NO_SIZES[] = { SIZE_MAX, (size_t)BINDINGCLAY_MOST_SIZE + 1, ((size_t)1 << 32) + 1, (size_t)SSIZE_MAX + 1 };
enum { COUNT = sizeof NO_SIZES / sizeof NO_SIZES[0] };

/* Room for so many bytes, which takes no memory where it isn't touched. */
static void *room_for(size_t size, int protection)
{
    void *room = mmap(NULL, size, protection, MAP_PRIVATE | MAP_ANONYMOUS | MAP_NORESERVE, -1, 0);
    return needed(room == MAP_FAILED ? NULL : room);
}

/* A pipe with five bytes, of which a read takes nothing and to which a write adds none, also where there is no process. */
static void of_bytes(size_t size)
{
    bindingclay clay = kernel_with_process();
    uint8_t bytes[ROOM];
    memset(bytes, UNTOUCHED, ROOM);
    NEW_PIPE(clay, 1, true);
    DONE(put(clay, 1, 1, "hello"), 5);
    DONE(open_text(clay, 1, "f", O_RDWR | O_CREAT), 2);
    DONE(put(clay, 1, 2, "file"), 4);
    DONE(bindingclay_lseek(clay, 1, 2, 0, SEEK_SET), 0);
    for (uint32_t pid = 1; pid <= 2; pid++) {
        FAULT(bindingclay_write(clay, pid, 1, bytes, size), EINVAL);
        FAULT(bindingclay_read(clay, pid, 0, bytes, size), EINVAL);
        FAULT(bindingclay_write(clay, pid, 2, bytes, size), EINVAL);
        FAULT(bindingclay_read(clay, pid, 2, bytes, size), EINVAL);
        FAULT(bindingclay_write(clay, pid, 9, bytes, size), EINVAL);
    }
    FAULT(bindingclay_file_bytes(clay, bytes_of("f"), 1, bytes, size), EINVAL);
    HOLDS(bytes[0] == UNTOUCHED && memcmp(bytes, bytes + 1, ROOM - 1) == 0);
    DONE(bindingclay_held(clay, 1, 0), 5);
    READS(clay, 1, 0, 9, "hello");
    READS(clay, 1, 2, 9, "file");
    bindingclay_free(clay);
}

/* A call that waits still waits, and is answered by a size that is one. */
static void of_resumes(size_t size)
{
    bindingclay clay = kernel_with_process();
    uint8_t bytes[ROOM];
    bindingclay_pollfd entry = { .fd = 0, .events = POLLIN, .revents = 77 };
    memset(bytes, UNTOUCHED, ROOM);
    NEW_PIPE(clay, 1, false);
    PARKED(bindingclay_read(clay, 1, 0, bytes, ROOM), 1);
    PARKED(bindingclay_poll(clay, 1, &entry, 1, true), 2);
    DONE(put(clay, 1, 1, "hello"), 5);
    FAULT(bindingclay_resume(clay, 1, bytes, size), EINVAL);
    FAULT(bindingclay_resume_of(clay, 1, 1, bytes, size), EINVAL);
    FAULT(bindingclay_resume_poll(clay, 2, &entry, size), EINVAL);
    FAULT(bindingclay_resume_poll_of(clay, 1, 2, &entry, size), EINVAL);
    FAULT(bindingclay_resume(clay, 99, bytes, size), EINVAL);
    HOLDS(bytes[0] == UNTOUCHED && memcmp(bytes, bytes + 1, ROOM - 1) == 0 && entry.revents == 77);
    DONE(bindingclay_owner(clay, 1), 1);
    DONE(bindingclay_resume_poll(clay, 2, &entry, 1), 1);
    RESUMES(clay, 1, ROOM, "hello");
    bindingclay_free(clay);
}

/* A splice and a tee, whose len has 32 bits. */
static void of_moves(uint32_t len)
{
    bindingclay clay = kernel_with_process();
    NEW_PIPE(clay, 1, true);
    NEW_PIPE(clay, 1, true);
    DONE(put(clay, 1, 1, "hello"), 5);
    for (uint32_t pid = 1; pid <= 2; pid++) {
        FAULT(bindingclay_splice(clay, pid, 0, NULL, 3, NULL, len, 0), EINVAL);
        FAULT(bindingclay_splice_at(clay, pid, 0, false, 0, 3, false, 0, len, 0), EINVAL);
        FAULT(bindingclay_tee(clay, pid, 0, 3, len, 0), EINVAL);
    }
    DONE(bindingclay_held(clay, 1, 0), 5);
    DONE(bindingclay_held(clay, 1, 2), 0);
    DONE(bindingclay_tee(clay, 1, 0, 3, BINDINGCLAY_MOST_SIZE, 0), 5);
    DONE(bindingclay_splice(clay, 1, 0, NULL, 3, NULL, BINDINGCLAY_MOST_SIZE, 0), 5);
    bindingclay_free(clay);
}

/* A name and the entries of a poll. */
static void of_names_and_polls(size_t size)
{
    bindingclay clay = kernel_with_process();
    bindingclay_pollfd entry = { .fd = 0, .events = POLLIN, .revents = 77 };
    bindingclay_node_facts facts = { 0, 0, 0 };
    FAULT(bindingclay_mkfifo(clay, 1, bytes_of("f"), size), EINVAL);
    FAULT(bindingclay_open_name(clay, 1, bytes_of("f"), size, O_RDWR | O_CREAT), EINVAL);
    FAULT(bindingclay_unlink(clay, 1, bytes_of("f"), size), EINVAL);
    FAULT(bindingclay_name_facts(clay, bytes_of("f"), size, &facts), EINVAL);
    FAULT(bindingclay_poll(clay, 1, &entry, size, false), EINVAL);
    HOLDS(entry.revents == 77);
    bindingclay_free(clay);
}

/* What is refused so leaves nothing in a record, and neither does a size that is none of what is handed out. */
static void of_records(size_t size)
{
    bindingclay clay = new_kernel(1, BINDINGCLAY_MOST_FILE_BYTES);
    uint8_t record[1024], byte = UNTOUCHED;
    size_t told = 0;
    bindingclay_answer answer;
    DONE(bindingclay_record(clay, true), 0);
    DONE(bindingclay_start(clay), 1);
    NEW_PIPE(clay, 1, true);
    FAULT(bindingclay_write(clay, 1, 1, &byte, size), EINVAL);
    FAULT(bindingclay_read(clay, 1, 0, &byte, size), EINVAL);
    FAULT(bindingclay_splice(clay, 1, 0, NULL, 1, NULL, UINT32_MAX, 0), EINVAL);
    FAULT(bindingclay_recorded(clay, &byte, size), EINVAL);
    HOLDS(byte == UNTOUCHED);
    while ((answer = bindingclay_recorded(clay, record + told, sizeof record - 1 - told)).value > 0)
        told += answer.value;
    record[told] = '\0';
    /* behind the lines of the version and of the limits */
    const char *steps = strstr((const char *)record, "\nstart\n");
    HOLDS(steps != NULL && strcmp(steps, "\nstart\n# => pid 1\n1 pipe nonblock\n# => fds 0 1\n") == 0);
    bindingclay_free(clay);
}

/* The greatest sizes that are some. A write takes as many bytes as one call moves, and a read gives as many as there are. */
static void greatest(void)
{
    bindingclay clay = kernel_with_process();
    uint8_t *bytes = room_for(BINDINGCLAY_MOST_SIZE, PROT_READ | PROT_WRITE);
    DONE(open_text(clay, 1, "f", O_RDWR | O_CREAT), 0);
    DONE(bindingclay_write(clay, 1, 0, bytes, BINDINGCLAY_MOST_SIZE), BINDINGCLAY_MOST_BYTES);
    DONE(bindingclay_lseek(clay, 1, 0, BINDINGCLAY_MOST_BYTES - 3, SEEK_SET), BINDINGCLAY_MOST_BYTES - 3);
    DONE(bindingclay_read(clay, 1, 0, bytes, BINDINGCLAY_MOST_SIZE), 3);
    DONE(bindingclay_file_bytes(clay, bytes_of("f"), 1, bytes, BINDINGCLAY_MOST_SIZE), BINDINGCLAY_MOST_BYTES);
    NEW_PIPE(clay, 1, false);
    PARKED(bindingclay_read(clay, 1, 1, bytes, BINDINGCLAY_MOST_SIZE), 1);
    DONE(put(clay, 1, 2, "hello"), 5);
    DONE(bindingclay_resume(clay, 1, bytes, BINDINGCLAY_MOST_SIZE), 5);
    HOLDS(memcmp(bytes, "hello", 5) == 0);
    FAULT(bindingclay_mkfifo(clay, 1, bytes, BINDINGCLAY_MOST_SIZE), ENAMETOOLONG);
    HOLDS(munmap(bytes, BINDINGCLAY_MOST_SIZE) == 0);
    bindingclay_free(clay);
}

/* The calls of the library itself, as a caller makes them without the header, lose no upper bits of a size on the way. */
#undef bindingclay_read
#undef bindingclay_write
#undef bindingclay_resume
#undef bindingclay_file_bytes
#undef bindingclay_mkfifo
#undef bindingclay_open_name
#undef bindingclay_unlink
#undef bindingclay_poll

static void without_the_header(void)
{
    bindingclay clay = kernel_with_process();
    uint8_t *bytes = room_for(FOUR_GIB + PAGE, PROT_READ | PROT_WRITE);
    DONE(open_text(clay, 1, "f", O_RDWR | O_CREAT), 0);
    /* a write takes as many bytes as one call moves, and a read gives as many as there are */
    DONE(bindingclay_write(clay, 1, 0, bytes, FOUR_GIB + 1), BINDINGCLAY_MOST_BYTES);
    DONE(bindingclay_lseek(clay, 1, 0, BINDINGCLAY_MOST_BYTES - 3, SEEK_SET), BINDINGCLAY_MOST_BYTES - 3);
    DONE(bindingclay_read(clay, 1, 0, bytes, FOUR_GIB + 1), 3);
    DONE(bindingclay_file_bytes(clay, bytes_of("f"), 1, bytes, FOUR_GIB), BINDINGCLAY_MOST_BYTES);
    /* a read that waits is resumed into any room that is large enough */
    NEW_PIPE(clay, 1, false);
    PARKED(bindingclay_read(clay, 1, 1, bytes, FOUR_GIB + 1), 1);
    DONE(put(clay, 1, 2, "hello"), 5);
    DONE(bindingclay_resume(clay, 1, bytes, FOUR_GIB), 5);
    HOLDS(memcmp(bytes, "hello", 5) == 0);
    /* a name is too long, and so is a poll, of whose entries none is looked at */
    FAULT(bindingclay_mkfifo(clay, 1, bytes, FOUR_GIB + 1), ENAMETOOLONG);
    FAULT(bindingclay_open_name(clay, 1, bytes, FOUR_GIB + 1, O_RDWR | O_CREAT), ENAMETOOLONG);
    FAULT(bindingclay_unlink(clay, 1, bytes, FOUR_GIB + 1), ENAMETOOLONG);
    bindingclay_pollfd *entries = room_for(FOUR_GIB * sizeof *entries, PROT_NONE);
    FAULT(bindingclay_poll(clay, 1, entries, FOUR_GIB, false), EINVAL);
    bindingclay_free(clay);
}

int main(void)
{
    for (int i = 0; i < COUNT; i++) {
        of_bytes(NO_SIZES[i]);
        of_resumes(NO_SIZES[i]);
        of_names_and_polls(NO_SIZES[i]);
        of_records(NO_SIZES[i]);
    }
    of_moves(UINT32_MAX);
    of_moves((uint32_t)BINDINGCLAY_MOST_SIZE + 1);
    greatest();
    without_the_header();
    return end();
}

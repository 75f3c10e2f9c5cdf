/* The front for threads: reads, writes, splices and tees. */
#define _GNU_SOURCE
#include "bindingclay_shared_inside.h"

#include <errno.h>
#include <fcntl.h>
#include <string.h>

/* Up to so many bytes go into a pipe whole (pipe(7), PIPE_BUF), and the least write that may go in by parts. */
enum { WHOLE = 4096, BY_PARTS = WHOLE + 1, MOST_BUFFERS = 1024 };

/* Whether a size is one that a call takes. If it isn't, the call fails with EINVAL, before all else. */
static bool is_size(size_t size)
{
    bool is_one = bindingclay_c_is_size(size);
    if (!is_one)
        errno = EINVAL;
    return is_one;
}

/* Under the lock, with the answer of a read or a write that waits: waits to the deadline of the handle, and tells what the call returns. Out of
 * line, so that a call that is answered at once stores no room. */
static ssize_t waited(const bc_process *process, bindingclay_answer parked, struct bc_room room)
{
    return (ssize_t)bc_concluded(process, bc_wait(process, parked, &room, bc_deadline(process)));
}

ssize_t bc_read(const bc_process *process, int fd, void *into, size_t size)
{
    if (!is_size(size) || !bc_in(process))
        return -1;
    bindingclay_answer answer = bindingclay_read(process->shared->clay, process->pid, fd, into, size);
    if (answer.kind == BINDINGCLAY_PARKED)
        return waited(process, answer, (struct bc_room){ .kind = BC_READS, .fd = fd, .into = into, .size = size });
    bc_out_behind(process->shared, bc_helped(process, BC_READS, fd));
    return (ssize_t)bc_concluded(process, answer);
}

/* A call that gives no bytes. */
static const struct bc_room of_move;

/* ---- Writes ---- */

/* How many bytes of a write are begun at once. A call that waits keeps a copy of its bytes, so a large write that has to wait is made in pieces.
 * Those that go in at once may be large. The others have at most 2 * WHOLE + 1 bytes. As the last piece goes in by parts too, if the write does,
 * no write waits for more room than it would wait for whole. */
static size_t piece(const bc_process *process, int fd, size_t size)
{
    bindingclay clay = process->shared->clay;
    bindingclay_node_facts facts;
    if (size <= WHOLE)
        return size;
    bindingclay_answer flags = bindingclay_get_fl(clay, process->pid, fd);
    if (flags.kind != BINDINGCLAY_DONE || (flags.value & O_NONBLOCK) != 0)
        return size;
    if (bindingclay_fd_facts(clay, process->pid, fd, &facts).kind != BINDINGCLAY_DONE || facts.kind == BINDINGCLAY_FILE)
        return size;
    if (facts.kind == BINDINGCLAY_PACKET_PIPE)
        return BINDINGCLAY_PACKET_BYTES;
    bindingclay_answer capacity = bindingclay_get_pipe_sz(clay, process->pid, fd);
    size_t room = capacity.value - facts.size;
    if (capacity.kind != BINDINGCLAY_DONE || size <= room)
        return size;
    if (size - room <= WHOLE)
        return size > BY_PARTS ? size - BY_PARTS : size;
    if (room > 0)
        return room;
    return size > 2 * WHOLE + 1 ? BY_PARTS : size;
}

/* Under the lock: begins pieces of a write, until one doesn't go in at once, or all are in. Counts those that went in before the last one, and
 * gives the size of that and its answer. If that waits, its answer tells of all pieces whether bytes moved. */
static bindingclay_answer begun(const bc_process *process, int fd, const uint8_t *bytes, size_t size, size_t *written, size_t *last)
{
    for (bool moved = false;; moved = true) {
        *last = piece(process, fd, size - *written);
        bindingclay_answer answer = bindingclay_write(process->shared->clay, process->pid, fd, bytes + *written, *last);
        if (answer.kind != BINDINGCLAY_DONE || answer.value < *last || *written + *last >= size) {
            answer.moved = answer.moved || moved;
            return answer;
        }
        *written += *last;
    }
}

/* Takes the lock for the next pieces of a write. If the process is gone, or the descriptor may name something else, gives it back and returns
 * false. */
static bool in_for(const bc_process *process, const struct bc_pieces *pieces)
{
    if (!bc_in(process))
        return false;
    bool goes_on = !pieces->is_cut_off;
    if (!goes_on)
        bc_unlock(process->shared);
    return goes_on;
}

/* Under the lock: a piece of a write waits, and another one is to follow. */
static void list_pieces(bc_shared *shared, struct bc_pieces *pieces)
{
    if (pieces->is_listed)
        return;
    pieces->is_listed = true;
    pieces->next = shared->pieces;
    shared->pieces = pieces;
}

static void unlist_pieces(bc_shared *shared, const struct bc_pieces *pieces)
{
    bc_lock(shared);
    struct bc_pieces **place = &shared->pieces;
    while (*place != pieces)
        place = &(*place)->next;
    *place = pieces->next;
    bc_unlock(shared);
}

/* A write of one piece. */
static ssize_t write_whole(const bc_process *process, int fd, const void *bytes, size_t size)
{
    if (!bc_in(process))
        return -1;
    bindingclay_answer answer = bindingclay_write(process->shared->clay, process->pid, fd, bytes, size);
    if (answer.kind == BINDINGCLAY_PARKED)
        return waited(process, answer, (struct bc_room){ .kind = BC_WRITES, .fd = fd });
    bc_out_with(process->shared, answer, bc_helped(process, BC_WRITES, fd));
    return (ssize_t)bc_concluded(process, answer);
}

static ssize_t write_by_pieces(const bc_process *process, int fd, const void *bytes, size_t size)
{
    const struct bc_room room = { .kind = BC_WRITES, .fd = fd };
    struct bc_pieces pieces = { .pid = process->pid, .fd = fd };
    bc_shared *shared = process->shared;
    bindingclay_answer answer;
    size_t written = 0, last;
    if (size > BINDINGCLAY_MOST_BYTES)
        size = BINDINGCLAY_MOST_BYTES;
    if (!bc_in(process))
        return -1;
    /* between two pieces it has no lock */
    bc_stay(shared);
    do {
        answer = begun(process, fd, bytes, size, &written, &last);
        if (answer.kind == BINDINGCLAY_PARKED && written + last < size)
            list_pieces(shared, &pieces);
        answer = bc_awaited(process, answer, &room, bc_deadline(process));
        if (answer.kind == BINDINGCLAY_DONE)
            written += answer.value;
    } while (answer.kind == BINDINGCLAY_DONE && answer.value == last && !answer.sigpipe && written < size && in_for(process, &pieces));
    if (pieces.is_listed)
        unlist_pieces(shared, &pieces);
    if (written > 0)
        answer.kind = BINDINGCLAY_DONE;
    if (answer.kind == BINDINGCLAY_DONE)
        answer.value = written;
    ssize_t put = (ssize_t)bc_concluded(process, answer);
    bc_go(shared);
    return put;
}

ssize_t bc_write(const bc_process *process, int fd, const void *bytes, size_t size)
{
    if (size <= WHOLE)
        return write_whole(process, fd, bytes, size);
    return is_size(size) ? write_by_pieces(process, fd, bytes, size) : -1;
}

/* ---- Several buffers ---- */

/* The bytes of some buffers in all, at most BINDINGCLAY_MOST_BYTES. Fails with EINVAL if their sum is no size, or their number is none. */
static ssize_t sum_of(const struct iovec *buffers, int count)
{
    size_t sum = 0;
    bool fits = count >= 0 && count <= MOST_BUFFERS;
    for (int i = 0; i < count && fits; i++) {
        fits = buffers[i].iov_len <= BINDINGCLAY_MOST_SIZE - sum;
        sum += fits ? buffers[i].iov_len : 0;
    }
    if (!fits) {
        errno = EINVAL;
        return -1;
    }
    return sum < BINDINGCLAY_MOST_BYTES ? (ssize_t)sum : BINDINGCLAY_MOST_BYTES;
}

/* Copies size bytes from the buffers to a row, or from the row to the buffers. */
static void copy_all(uint8_t *row, const struct iovec *buffers, size_t size, bool to_row)
{
    for (size_t part; size > 0; buffers++, row += part, size -= part) {
        part = buffers->iov_len < size ? buffers->iov_len : size;
        if (part > 0)
            memcpy(to_row ? row : buffers->iov_base, to_row ? buffers->iov_base : row, part);
    }
}

/* A row for so many bytes: the one that is given if it has room for them. Fails with ENOMEM. */
static uint8_t *row_for(uint8_t *given, size_t size)
{
    uint8_t *row = size <= WHOLE ? given : malloc(size);
    if (row == NULL)
        errno = ENOMEM;
    return row;
}

static void give_back(uint8_t *row, const uint8_t *given)
{
    int error = errno;
    if (row != given)
        free(row);
    errno = error;
}

ssize_t bc_readv(const bc_process *process, int fd, const struct iovec *buffers, int count)
{
    uint8_t few[WHOLE];
    ssize_t size = sum_of(buffers, count);
    if (size < 0)
        return -1;
    uint8_t *row = row_for(few, (size_t)size);
    if (row == NULL)
        return -1;
    ssize_t got = bc_read(process, fd, row, (size_t)size);
    if (got > 0)
        copy_all(row, buffers, (size_t)got, false);
    give_back(row, few);
    return got;
}

ssize_t bc_writev(const bc_process *process, int fd, const struct iovec *buffers, int count)
{
    uint8_t few[WHOLE];
    ssize_t size = sum_of(buffers, count);
    if (size < 0)
        return -1;
    uint8_t *row = row_for(few, (size_t)size);
    if (row == NULL)
        return -1;
    copy_all(row, buffers, (size_t)size, true);
    ssize_t put = bc_write(process, fd, row, (size_t)size);
    give_back(row, few);
    return put;
}

/* ---- Splices and tees ---- */

ssize_t bc_splice(const bc_process *process, int from, off_t *from_offset, int to, off_t *to_offset, size_t size, unsigned flags)
{
    uint64_t first = from_offset != NULL ? (uint64_t)*from_offset : 0;
    uint64_t second = to_offset != NULL ? (uint64_t)*to_offset : 0;
    if (!is_size(size) || !bc_in(process))
        return -1;
    bindingclay_answer answer = bindingclay_splice(process->shared->clay, process->pid, from, from_offset != NULL ? &first : NULL, to,
        to_offset != NULL ? &second : NULL, (uint32_t)size, flags);
    ssize_t moved = (ssize_t)bc_concluded(process, bc_awaited(process, answer, &of_move, bc_deadline(process)));
    if (moved > 0 && from_offset != NULL)
        *from_offset += moved;
    if (moved > 0 && to_offset != NULL)
        *to_offset += moved;
    return moved;
}

ssize_t bc_tee(const bc_process *process, int from, int to, size_t size, unsigned flags)
{
    if (!is_size(size) || !bc_in(process))
        return -1;
    bindingclay_answer answer = bindingclay_tee(process->shared->clay, process->pid, from, to, (uint32_t)size, flags);
    return (ssize_t)bc_concluded(process, bc_awaited(process, answer, &of_move, bc_deadline(process)));
}

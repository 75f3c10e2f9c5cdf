/* Reads, writes, splices and tees. Each call is the layer's or the host's, and is made again on the host if a move ended it. */
#include "preload.h"

#include <errno.h>
#include <limits.h>

/* What is asked of the layer, of a size that the host cuts (read(2)): the layer would refuse it. It refuses what is no ssize_t, as the host does. */
static size_t cut(size_t size)
{
    return size > BINDINGCLAY_MOST_SIZE && size <= SSIZE_MAX ? BINDINGCLAY_MOST_SIZE : size;
}

/* The same of a splice or a tee, which the host refuses for no size: none of its bytes is the program's own. */
static size_t cut_move(size_t size)
{
    return size > BINDINGCLAY_MOST_SIZE ? BINDINGCLAY_MOST_SIZE : size;
}

ssize_t read(int fd, void *into, size_t size)
{
    struct visit visit;
    while (enter_for(fd, &visit)) {
        counts[READS]++;
        ssize_t count = bc_read(&layer, layers(fd), into, cut(size));
        if (!leave_to_repeat(&visit, count))
            return count;
    }
    return host()->read(fd, into, size);
}

ssize_t readv(int fd, const struct iovec *buffers, int count)
{
    struct visit visit;
    while (enter_for(fd, &visit)) {
        counts[READS]++;
        ssize_t got = bc_readv(&layer, layers(fd), buffers, count);
        if (!leave_to_repeat(&visit, got))
            return got;
    }
    return host()->readv(fd, buffers, count);
}

/* Whether a write that put in some of its bytes goes on with the rest: a move cut it, or the layer, which takes so many at most. */
static bool goes_on(const struct visit *visit, ssize_t count)
{
    return count > 0 && !visit->is_signalled && !visit->is_broken && (is_moved(visit) || count == BINDINGCLAY_MOST_BYTES);
}

ssize_t write(int fd, const void *bytes, size_t size)
{
    struct visit visit;
    size_t done = 0;
    ssize_t count;
    size = cut(size);
    while (enter_for(fd, &visit)) {
        counts[WRITES]++;
        count = bc_write(&layer, layers(fd), (const char *)bytes + done, size - done);
        bool is_cut = goes_on(&visit, count) && (size_t)count < size - done;
        bool is_repeated = leave_to_repeat(&visit, count);
        done += count > 0 ? (size_t)count : 0;
        if (!is_cut && !is_repeated)
            return done > 0 ? (ssize_t)done : count;
    }
    count = host()->write(fd, (const char *)bytes + done, size - done);
    if (count < 0)
        return done > 0 ? (ssize_t)done : -1;
    return (ssize_t)done + count;
}

/* Writes what is left of some buffers behind the bytes that went in. */
static ssize_t write_rest(int fd, const struct iovec *buffers, int count, size_t done)
{
    size_t behind = 0;
    for (int i = 0; i < count; behind += buffers[i++].iov_len) {
        size_t skipped = done > behind ? done - behind : 0;
        if (skipped >= buffers[i].iov_len)
            continue;
        ssize_t written = write(fd, (const char *)buffers[i].iov_base + skipped, buffers[i].iov_len - skipped);
        done += written > 0 ? (size_t)written : 0;
        if (written < 0 || (size_t)written < buffers[i].iov_len - skipped)
            break;
    }
    return (ssize_t)done;
}

ssize_t writev(int fd, const struct iovec *buffers, int count)
{
    struct visit visit;
    while (enter_for(fd, &visit)) {
        counts[WRITES]++;
        ssize_t written = bc_writev(&layer, layers(fd), buffers, count);
        bool is_cut = goes_on(&visit, written);
        if (leave_to_repeat(&visit, written))
            continue;
        return is_cut ? write_rest(fd, buffers, count, (size_t)written) : written;
    }
    return host()->writev(fd, buffers, count);
}

/* Enters if both descriptors are of the layer. If one is the host's, moves the pipe of the other one. */
static bool enter_for_both(int one, int other, struct visit *visit)
{
    if (enter_for(one, visit)) {
        if (is_ours(other))
            return true;
        leave(visit);
    }
    move_first(one);
    move_first(other);
    return false;
}

ssize_t splice(int from, off64_t *from_offset, int to, off64_t *to_offset, size_t size, unsigned flags)
{
    struct visit visit;
    while (enter_for_both(from, to, &visit)) {
        counts[SPLICES]++;
        ssize_t moved = bc_splice(&layer, layers(from), from_offset, layers(to), to_offset, cut_move(size), flags);
        if (!leave_to_repeat(&visit, moved))
            return moved;
    }
    return host()->splice(from, from_offset, to, to_offset, size, flags);
}

ssize_t tee(int from, int to, size_t size, unsigned flags)
{
    struct visit visit;
    while (enter_for_both(from, to, &visit)) {
        counts[TEES]++;
        ssize_t copied = bc_tee(&layer, layers(from), layers(to), cut_move(size), flags);
        if (!leave_to_repeat(&visit, copied))
            return copied;
    }
    return host()->tee(from, to, size, flags);
}

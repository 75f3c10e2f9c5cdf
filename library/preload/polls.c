/* poll, ppoll, select and pselect, of descriptors of the layer and of the host at once. The layer is asked first, without waiting. If nothing is
 * ready, the thread sleeps in the host's ppoll, with an eventfd to which each step of the layer writes. So the host's signals end it too. */
#include "preload.h"

#include <errno.h>
#include <sys/eventfd.h>

/* The C library declares that poll and ppoll only write to the entries. */
#if defined __GNUC__ && !defined __clang__
#pragma GCC diagnostic ignored "-Wmaybe-uninitialized"
#endif

enum { MOST_ENTRIES = FD_SETSIZE, LAYERS_ENTRIES = BINDINGCLAY_USUAL_DESCRIPTORS, LEAST_EVENT = 512 };

/* What Linux tells beside POLLIN and POLLOUT of a pipe. */
static const short events_of[2][2] = { { POLLIN, POLLRDNORM }, { POLLOUT, POLLWRNORM } };

static struct timespec now(void)
{
    struct timespec time;
    clock_gettime(CLOCK_MONOTONIC, &time);
    return time;
}

static struct timespec sum(struct timespec time, struct timespec more)
{
    time.tv_sec += more.tv_sec;
    time.tv_nsec += more.tv_nsec;
    if (time.tv_nsec >= 1000000000) {
        time.tv_sec++;
        time.tv_nsec -= 1000000000;
    }
    return time;
}

/* How long it is to a time; nothing if that has passed. */
static struct timespec until(struct timespec time)
{
    struct timespec begin = now(), left = { time.tv_sec - begin.tv_sec, time.tv_nsec - begin.tv_nsec };
    if (left.tv_nsec < 0) {
        left.tv_sec--;
        left.tv_nsec += 1000000000;
    }
    return left.tv_sec < 0 ? (struct timespec){ 0, 0 } : left;
}

static bool has_ours(const struct pollfd *entries, nfds_t count)
{
    for (nfds_t i = 0; i < count; i++)
        if (is_ours(entries[i].fd))
            return true;
    return false;
}

/* Under the lock: asks the layer for at most LAYERS_ENTRIES entries. Those of the host have no descriptor there. */
static int ready_part(struct pollfd *entries, nfds_t count)
{
    struct pollfd asked[LAYERS_ENTRIES];
    int ready = 0;
    for (nfds_t i = 0; i < count; i++) {
        asked[i] = (struct pollfd){ .fd = is_ours(entries[i].fd) ? layers(entries[i].fd) : -1, .events = entries[i].events };
        for (int k = 0; k < 2; k++)
            if ((entries[i].events & events_of[k][1]) != 0)
                asked[i].events |= events_of[k][0];
    }
    if (bc_poll(&layer, asked, count, 0) < 0)
        die("a poll of the layer");
    for (nfds_t i = 0; i < count; i++) {
        short told = asked[i].revents;
        for (int k = 0; k < 2; k++)
            if ((told & events_of[k][0]) != 0)
                told |= events_of[k][1];
        entries[i].revents = told & (entries[i].events | POLLERR | POLLHUP | POLLNVAL);
        ready += entries[i].revents != 0;
    }
    return ready;
}

/* Under the lock: what of the layer is ready now. Copies the entries of the host to those of hosts, which has a further one. */
static int ready_of_layer(struct pollfd *entries, struct pollfd *hosts, nfds_t count)
{
    int ready = 0;
    counts[POLLS]++;
    for (nfds_t i = 0; i < count; i++)
        hosts[i] = (struct pollfd){ .fd = is_ours(entries[i].fd) ? -1 : entries[i].fd, .events = entries[i].events };
    for (nfds_t begin = 0; begin < count; begin += LAYERS_ENTRIES)
        ready += ready_part(entries + begin, count - begin < LAYERS_ENTRIES ? count - begin : LAYERS_ENTRIES);
    return ready;
}

/* Adds what is ready of the host to what is of the layer. */
static int ready_of_both(struct pollfd *entries, const struct pollfd *hosts, nfds_t count)
{
    int ready = 0;
    for (nfds_t i = 0; i < count; i++) {
        entries[i].revents |= hosts[i].revents;
        ready += entries[i].revents != 0;
    }
    return ready;
}

/* An eventfd whose number is out of the way, if it may have such a one. */
static int new_event(void)
{
    int event = eventfd(0, EFD_CLOEXEC | EFD_NONBLOCK);
    int moved = event >= 0 ? host()->fcntl(event, F_DUPFD_CLOEXEC, LEAST_EVENT) : -1;
    if (moved < 0)
        return event;
    host()->close(event);
    return moved;
}

/* Asks once, and sleeps once, for a short while if there is no eventfd. Returns how many entries are ready, 0 if that ended, or -1. */
static int round_of(struct pollfd *entries, nfds_t count, const struct timespec *left, const sigset_t *mask, int event)
{
    static const struct timespec none = { 0, 0 }, slice = { 0, 10000000 };
    struct pollfd hosts[MOST_ENTRIES + 1];
    struct poller poller = { .event = event };
    struct visit visit;
    uint64_t told;
    enter(&visit);
    visit.is_quiet = true;
    int ready = ready_of_layer(entries, hosts, count);
    if (event >= 0)
        add_poller(&poller);
    leave(&visit);
    hosts[count] = (struct pollfd){ .fd = event, .events = POLLIN };
    if (ready > 0)
        left = &none;
    else if (event < 0 && (left == NULL || left->tv_sec > 0 || left->tv_nsec > slice.tv_nsec))
        left = &slice;
    int status = host()->ppoll(hosts, count + 1, left, ready > 0 ? NULL : mask);
    int error = errno;
    if (event >= 0) {
        enter(&visit);
        visit.is_quiet = true;
        remove_poller(&poller);
        leave(&visit);
        (void)!host()->read(event, &told, sizeof told);
    }
    errno = error;
    if (status < 0)
        return ready > 0 ? ready : -1;
    return ready_of_both(entries, hosts, count);
}

/* What ppoll does, if some entries are of the layer. */
static int wait_for(struct pollfd *entries, nfds_t count, const struct timespec *timeout, const sigset_t *mask)
{
    const struct timespec none = { 0, 0 };
    struct timespec left = timeout != NULL ? *timeout : none, end = sum(now(), left);
    int ready = round_of(entries, count, &none, mask, -1);
    if (ready != 0 || (timeout != NULL && left.tv_sec == 0 && left.tv_nsec == 0))
        return ready;
    int event = new_event();
    do {
        left = until(end);
        ready = round_of(entries, count, timeout != NULL ? &left : NULL, mask, event);
    } while (ready == 0 && (timeout == NULL || left.tv_sec > 0 || left.tv_nsec > 0));
    int error = errno;
    if (event >= 0)
        host()->close(event);
    errno = error;
    return ready;
}

int ppoll(struct pollfd *entries, nfds_t count, const struct timespec *timeout, const sigset_t *mask)
{
    bool is_ours_too = has_ours(entries, count);
    for (nfds_t i = 0; i < count && count > MOST_ENTRIES && is_ours_too; i++)
        move_first(entries[i].fd);
    bool is_valid = timeout == NULL || (timeout->tv_sec >= 0 && timeout->tv_nsec >= 0 && timeout->tv_nsec < 1000000000);
    if (!is_ours_too || count > MOST_ENTRIES || !is_valid)
        return host()->ppoll(entries, count, timeout, mask);
    return wait_for(entries, count, timeout, mask);
}

int poll(struct pollfd *entries, nfds_t count, int timeout)
{
    const struct timespec time = { timeout / 1000, (long)(timeout % 1000) * 1000000 };
    if (!has_ours(entries, count))
        return host()->poll(entries, count, timeout);
    return ppoll(entries, count, timeout < 0 ? NULL : &time, NULL);
}

/* ---- Sets ---- */

/* What makes a descriptor one of the sets that are read, written and exceptional (select(2), "Correspondence between select() and poll()"). */
static const short asked_of[3] = { POLLRDNORM | POLLRDBAND | POLLIN, POLLWRBAND | POLLWRNORM | POLLOUT, POLLPRI };
static const short told_of[3] = { POLLRDNORM | POLLRDBAND | POLLIN | POLLHUP | POLLERR, POLLWRBAND | POLLWRNORM | POLLOUT | POLLERR, POLLPRI };

static nfds_t entries_of(struct pollfd *entries, int count, fd_set *const sets[3])
{
    nfds_t made = 0;
    for (int fd = 0; fd < count; fd++) {
        short events = 0;
        for (int k = 0; k < 3; k++)
            if (sets[k] != NULL && FD_ISSET(fd, sets[k]))
                events |= asked_of[k];
        if (events != 0)
            entries[made++] = (struct pollfd){ .fd = fd, .events = events };
    }
    return made;
}

/* Writes to the sets what the entries tell. Returns how many bits are set, or -1 with EBADF, and then the sets stay. */
static int sets_of(const struct pollfd *entries, nfds_t count, fd_set *const sets[3])
{
    int bits = 0;
    for (nfds_t i = 0; i < count; i++) {
        if ((entries[i].revents & POLLNVAL) != 0) {
            errno = EBADF;
            return -1;
        }
    }
    for (int k = 0; k < 3; k++) {
        for (nfds_t i = 0; i < count && sets[k] != NULL; i++) {
            bool is_asked = (entries[i].events & asked_of[k]) == asked_of[k];
            if (is_asked && (entries[i].revents & told_of[k]) != 0)
                bits++;
            else
                FD_CLR(entries[i].fd, sets[k]);
        }
    }
    return bits;
}

int pselect(int count, fd_set *in, fd_set *out, fd_set *except, const struct timespec *timeout, const sigset_t *mask)
{
    fd_set *const sets[3] = { in, out, except };
    struct pollfd entries[MOST_ENTRIES];
    nfds_t made = count <= FD_SETSIZE ? entries_of(entries, count, sets) : 0;
    if (!has_ours(entries, made))
        return host()->pselect(count, in, out, except, timeout, mask);
    int ready = ppoll(entries, made, timeout, mask);
    return ready < 0 ? -1 : sets_of(entries, made, sets);
}

int select(int count, fd_set *in, fd_set *out, fd_set *except, struct timeval *timeout)
{
    fd_set *const sets[3] = { in, out, except };
    struct pollfd entries[MOST_ENTRIES];
    nfds_t made = count <= FD_SETSIZE ? entries_of(entries, count, sets) : 0;
    bool is_valid = timeout == NULL || (timeout->tv_sec >= 0 && timeout->tv_usec >= 0);
    if (!has_ours(entries, made) || !is_valid)
        return host()->select(count, in, out, except, timeout);
    struct timespec time = { 0, 0 }, end;
    if (timeout != NULL)
        time = (struct timespec){ timeout->tv_sec + timeout->tv_usec / 1000000, timeout->tv_usec % 1000000 * 1000 };
    end = sum(now(), time);
    int ready = ppoll(entries, made, timeout != NULL ? &time : NULL, NULL);
    if (timeout != NULL) {
        /* Linux writes how much time is left */
        time = until(end);
        *timeout = (struct timeval){ time.tv_sec, time.tv_nsec / 1000 };
    }
    return ready < 0 ? -1 : sets_of(entries, made, sets);
}

/* poll and resume_poll, with each refusal and each mask (poll). */
#include "check.h"

#include <fcntl.h>
#include <poll.h>

enum { ENTRIES = 256, MANY = 70000, UNWRITTEN = 0x5555 };

static bindingclay_pollfd asking(int32_t fd, int16_t events)
{
    return (bindingclay_pollfd){ .fd = fd, .events = events, .revents = UNWRITTEN };
}

/* Whether a poll of one descriptor, which may not wait, answers a mask. */
static bool masks(const char *file, int line, bindingclay clay, int32_t fd, int16_t events, int16_t mask)
{
    bindingclay_pollfd entry = asking(fd, events);
    return answers(file, line, "a poll", bindingclay_poll(clay, 1, &entry, 1, false),
               an_answer(BINDINGCLAY_DONE, mask != 0, 0, false))
        && holds(file, line, "the mask is the wanted one", entry.revents == mask)
        && holds(file, line, "the entry is as it was", entry.fd == fd && entry.events == events);
}

#define MASK(clay, fd, events, mask) masks(__FILE__, __LINE__, clay, fd, events, mask)

static const int16_t ALL = POLLIN | POLLOUT | POLLERR | POLLHUP | POLLNVAL;

static void masks_of_pipes(void)
{
    bindingclay clay = kernel_with_process();
    NEW_PIPE(clay, 1, false);
    MASK(clay, 0, ALL, 0);
    MASK(clay, 1, ALL, POLLOUT);
    MASK(clay, 1, POLLIN, 0);
    DONE(put(clay, 1, 1, "a"), 1);
    MASK(clay, 0, ALL, POLLIN);
    MASK(clay, 0, POLLOUT, 0);
    MASK(clay, 0, 0, 0);
    /* ready to be written to is one with room for 4,096 bytes */
    DONE(put_many(clay, 1, 1, 61439), 61439);
    MASK(clay, 1, POLLOUT, POLLOUT);
    DONE(put(clay, 1, 1, "a"), 1);
    MASK(clay, 1, POLLOUT, 0);
    /* that the last writer left, or the last reader, is told unasked */
    DONE(bindingclay_dup(clay, 1, 1), 2);
    DONE(bindingclay_close(clay, 1, 1), 0);
    MASK(clay, 0, POLLIN, POLLIN);
    DONE(bindingclay_close(clay, 1, 2), 0);
    MASK(clay, 0, POLLIN, POLLIN | POLLHUP);
    DONE(take(clay, 1, 0, 65536), 61441);
    MASK(clay, 0, 0, POLLHUP);
    bindingclay_ends ends = NEW_PIPE(clay, 1, false);
    DONE(bindingclay_close(clay, 1, ends.read_end), 0);
    MASK(clay, ends.write_end, 0, POLLERR);
    MASK(clay, ends.write_end, POLLOUT, POLLOUT | POLLERR);
    /* a FIFO whose writer never came isn't hung */
    DONE(mkfifo_text(clay, 1, "q"), 0);
    DONE(open_text(clay, 1, "q", O_RDONLY | O_NONBLOCK), 1);
    MASK(clay, 1, ALL, 0);
    /* a descriptor for both ends is its own other end */
    int32_t both = (int32_t)open_text(clay, 1, "q", O_RDWR).value;
    MASK(clay, both, ALL, POLLOUT);
    DONE(put(clay, 1, both, "a"), 1);
    MASK(clay, both, ALL, POLLIN | POLLOUT);
    DONE(put_many(clay, 1, both, 65535), 65535);
    MASK(clay, both, ALL, POLLIN);
    bindingclay_free(clay);
}

static void masks_of_others(void)
{
    bindingclay clay = kernel_with_process();
    DONE(open_text(clay, 1, "f", O_RDONLY | O_CREAT), 0);
    MASK(clay, 0, ALL, POLLIN | POLLOUT);
    MASK(clay, 0, POLLIN, POLLIN);
    MASK(clay, 0, POLLOUT, POLLOUT);
    MASK(clay, 0, 0, 0);
    MASK(clay, 0, POLLPRI | POLLERR | POLLHUP | POLLNVAL, 0);
    MASK(clay, 0, (int16_t)~(POLLIN | POLLOUT), 0);
    MASK(clay, 0, -1, POLLIN | POLLOUT);
    MASK(clay, 1, 0, POLLNVAL);
    MASK(clay, 256, ALL, POLLNVAL);
    MASK(clay, INT32_MAX, POLLIN, POLLNVAL);
    MASK(clay, -1, ALL, 0);
    MASK(clay, INT32_MIN, ALL, 0);
    bindingclay_free(clay);
}

static void lists_of_entries(void)
{
    bindingclay clay = kernel_with_process();
    NEW_PIPE(clay, 1, false);
    DONE(put(clay, 1, 1, "a"), 1);
    bindingclay_pollfd entries[ENTRIES + 1] = { asking(0, POLLIN), asking(-1, POLLIN), asking(1, POLLIN), asking(9, POLLIN),
        asking(0, 0), asking(0, POLLIN | POLLOUT) };
    DONE(bindingclay_poll(clay, 1, entries, 6, true), 3);
    static const int16_t WANTED[] = { POLLIN, 0, 0, POLLNVAL, 0, POLLIN };
    for (int i = 0; i < 6; i++)
        HOLDS(entries[i].revents == WANTED[i]);
    DONE(bindingclay_poll(clay, 1, entries, 0, false), 0);
    HOLDS(entries[0].revents == POLLIN);
    /* as many entries as there are, and one more */
    for (int i = 0; i <= ENTRIES; i++)
        entries[i] = asking(i % 2, POLLIN);
    FAULT(bindingclay_poll(clay, 1, entries, ENTRIES + 1, false), EINVAL);
    FAULT(bindingclay_poll(clay, 1, entries, ENTRIES + 1, true), EINVAL);
    for (int i = 0; i <= ENTRIES; i++)
        HOLDS(entries[i].revents == UNWRITTEN);
    DONE(bindingclay_poll(clay, 1, entries, ENTRIES, true), ENTRIES / 2);
    for (int i = 0; i < ENTRIES; i++)
        HOLDS(entries[i].revents == (i % 2 == 0 ? POLLIN : 0));
    HOLDS(entries[ENTRIES].revents == UNWRITTEN);
    READS(clay, 1, 0, 9, "a");
    bindingclay_free(clay);
}

/* Many more entries than there may be, also of a poll that may wait: it takes no number. */
static void long_lists(void)
{
    bindingclay clay = kernel_with_process();
    bindingclay_pollfd *entries = needed(malloc(MANY * sizeof *entries));
    for (int i = 0; i < MANY; i++)
        entries[i] = asking(9, POLLIN);
    FAULT(bindingclay_poll(clay, 1, entries, MANY, false), EINVAL);
    FAULT(bindingclay_poll(clay, 1, entries, MANY, true), EINVAL);
    for (int i = 0; i < MANY; i++)
        HOLDS(entries[i].revents == UNWRITTEN);
    PARKED(bindingclay_poll(clay, 1, entries, 0, true), 1);
    free(entries);
    bindingclay_free(clay);
}

static void polls_that_wait(void)
{
    bindingclay clay = kernel_with_process();
    NEW_PIPE(clay, 1, false);
    NEW_PIPE(clay, 1, false);
    bindingclay_pollfd entries[2] = { asking(0, POLLIN), asking(2, POLLIN) };
    PARKED(bindingclay_poll(clay, 1, entries, 2, true), 1);
    PARKED(bindingclay_resume_poll(clay, 1, entries, 2), 1);
    HOLDS(entries[0].revents == UNWRITTEN && entries[1].revents == UNWRITTEN);
    /* it keeps what it found open: there is a reader of the second pipe, until it is answered */
    DONE(bindingclay_close(clay, 1, 2), 0);
    DONE(put(clay, 1, 3, "a"), 1);
    DONE(bindingclay_resume_poll(clay, 1, entries, 2), 1);
    HOLDS(entries[0].revents == 0 && entries[1].revents == POLLIN);
    HOLDS(entries[0].fd == 0 && entries[0].events == POLLIN && entries[1].fd == 2 && entries[1].events == POLLIN);
    OTHER(bindingclay_resume_poll(clay, 1, entries, 2), BINDINGCLAY_NO_CALL);
    FAULT(put(clay, 1, 3, "a"), EPIPE);
    /* what it asks is what it asked as it began: of the entries now only revents is written */
    entries[0] = asking(0, POLLIN);
    PARKED(bindingclay_poll(clay, 1, entries, 1, true), 2);
    DONE(put(clay, 1, 1, "a"), 1);
    entries[0] = asking(77, 0);
    DONE(bindingclay_resume_poll(clay, 2, entries, 1), 1);
    HOLDS(entries[0].fd == 77 && entries[0].events == 0 && entries[0].revents == POLLIN);
    READS(clay, 1, 0, 9, "a");
    /* with nothing to wait for it waits until it is interrupted */
    PARKED(bindingclay_poll(clay, 1, entries, 0, true), 3);
    PARKED(bindingclay_resume_poll(clay, 3, entries, 0), 3);
    FAULT(bindingclay_interrupt(clay, 3), EINTR);
    entries[0] = asking(-1, POLLIN);
    PARKED(bindingclay_poll(clay, 1, entries, 1, true), 4);
    FAULT(bindingclay_interrupt(clay, 4), EINTR);
    OTHER(bindingclay_interrupt(clay, 4), BINDINGCLAY_NO_CALL);
    bindingclay_free(clay);
}

/* Of fewer entries than it began with the first are told. Of more, those behind are left alone. If it is resumed as other calls are, it is
 * told how many entries it has, and waits on. */
static void masks_that_are_lost(void)
{
    bindingclay clay = kernel_with_process();
    NEW_PIPE(clay, 1, false);
    bindingclay_pollfd entries[3] = { asking(0, POLLIN), asking(-1, POLLIN), asking(0, POLLIN) };
    PARKED(bindingclay_poll(clay, 1, entries, 3, true), 1);
    PARKED(bindingclay_poll(clay, 1, entries, 3, true), 2);
    PARKED(again(clay, 2), 2);
    DONE(put(clay, 1, 1, "a"), 1);
    DONE(bindingclay_resume_poll(clay, 1, entries, 2), 2);
    HOLDS(entries[0].revents == POLLIN && entries[1].revents == 0 && entries[2].revents == UNWRITTEN);
    SHORT(again(clay, 2), 3);
    SHORT(again(clay, 2), 3);
    READS(clay, 1, 0, 9, "a");
    PARKED(again(clay, 2), 2);
    DONE(put(clay, 1, 1, "a"), 1);
    DONE(bindingclay_resume_poll(clay, 2, entries, 3), 2);
    HOLDS(entries[0].revents == POLLIN && entries[1].revents == 0 && entries[2].revents == POLLIN);
    OTHER(again(clay, 2), BINDINGCLAY_NO_CALL);
    READS(clay, 1, 0, 9, "a");
    PARKED(bindingclay_poll(clay, 1, entries, 1, true), 3);
    DONE(put(clay, 1, 1, "a"), 1);
    entries[1].revents = UNWRITTEN;
    DONE(bindingclay_resume_poll(clay, 3, entries, 2), 1);
    HOLDS(entries[0].revents == POLLIN && entries[1].revents == UNWRITTEN);
    bindingclay_free(clay);
}

/* Calls of other kinds are resumed as well: a write is done, and a read waits on until there are bytes, for which it is short of room. */
static void other_calls(void)
{
    bindingclay clay = kernel_with_process();
    NEW_PIPE(clay, 1, false);
    bindingclay_pollfd entry = asking(0, POLLIN);
    PARKED_WITH_BYTES(put_many(clay, 1, 1, 65537), 1);
    DONE(take(clay, 1, 0, 9), 9);
    DONE(bindingclay_resume_poll(clay, 1, &entry, 1), 65537);
    DONE(take(clay, 1, 0, 65536), 65528);
    PARKED(take(clay, 1, 0, 9), 2);
    PARKED(bindingclay_resume_poll(clay, 2, &entry, 1), 2);
    DONE(put(clay, 1, 1, "abc"), 3);
    SHORT(bindingclay_resume_poll(clay, 2, &entry, 1), 3);
    HOLDS(entry.revents == UNWRITTEN);
    bindingclay_free(clay);
}

int main(void)
{
    masks_of_pipes();
    masks_of_others();
    lists_of_entries();
    long_lists();
    polls_that_wait();
    masks_that_are_lost();
    other_calls();
    return end();
}

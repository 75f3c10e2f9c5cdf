/* Which row of docs/LINUX.md explains a difference: by the call, both replies, and what the script did before. */
#include "beside.h"

/* What is known of a difference. `call` is the call that goes on, if the line resumes or interrupts one. */
struct known {
    struct request call;
    const char *here, *host;
    bool goes_on;
    /* what the lines before did, each somewhere */
    bool truncated_for_reading, wrote_after_splice, made_packets, set_flags, moved, large_waited, open_waited, spent;
};

static bool starts(const char *text, const char *with)
{
    return strncmp(text, with, strlen(with)) == 0;
}

static bool are(const struct known *known, const char *here, const char *host)
{
    return starts(known->here, here) && starts(known->host, host);
}

static bool would_wait(const char *text)
{
    return strcmp(text, "EAGAIN") == 0 || starts(text, "parked ");
}

/* The count of a reply, or -1. */
static long long count_of(const char *text)
{
    return starts(text, "count ") ? atoll(text + 6) : -1;
}

/* Whether the host counts fewer bytes, or waits. */
static bool takes_less(const struct known *known)
{
    long long here = count_of(known->here), host = count_of(known->host);
    return here >= 0 && (would_wait(known->host) || (host >= 0 && host < here));
}

static bool is_move(const struct known *known)
{
    return known->call.call == SPLICE || known->call.call == TEE;
}

/* Whether the host reads other bytes, or waits. */
static bool reads_others(const struct known *known)
{
    return are(known, "data ", "data ") || (starts(known->here, "data ") && would_wait(known->host));
}

/* ---- Masks ---- */

static bool has_event(const char *mask, size_t length, const char *event)
{
    for (const char *at = mask; at < mask + length; at += strcspn(at, ", ") + 1)
        if (strncmp(at, event, strlen(event)) == 0)
            return true;
    return false;
}

/* Whether two replies of a poll differ in no other events than these, which the first has and the second lacks. */
static bool lacks_only(const char *first, const char *second, const char *lacking)
{
    static const char *const EVENTS[] = { "in", "out", "err", "hup", "nval" };
    if (!starts(first, "masks ") || !(starts(second, "masks ") || starts(second, "parked ")))
        return false;
    bool waits = starts(second, "parked ");
    size_t length, other = 0;
    first += 6 + strcspn(first + 6, " ");
    second += waits ? strlen(second) : 6 + strcspn(second + 6, " ");
    for (; *first == ' '; first += length, second += other) {
        length = strcspn(++first, " ");
        other = strcspn(second += *second == ' ', " ");
        for (size_t i = 0; i < sizeof EVENTS / sizeof EVENTS[0]; i++)
            if (has_event(first, length, EVENTS[i]) != has_event(second, other, EVENTS[i])
                && (strcmp(EVENTS[i], lacking) != 0 || has_event(second, other, EVENTS[i])))
                return false;
    }
    return true;
}

/* ---- The rows ---- */

static bool of_small_write(const struct known *known)
{
    return known->call.call == WRITE && known->call.byte_count <= PIPE_BUF_HERE && takes_less(known);
}

static bool of_large_write(const struct known *known)
{
    return known->call.call == WRITE && known->call.byte_count > PIPE_BUF_HERE && !known->goes_on && takes_less(known);
}

static bool of_move(const struct known *known)
{
    return is_move(known) && count_of(known->here) > 0 && takes_less(known);
}

static bool of_room_for_poll(const struct known *known)
{
    return known->call.call == POLL && lacks_only(known->here, known->host, "out");
}

static bool of_capacity(const struct known *known)
{
    return known->call.call == SET_SZ && are(known, "size ", "EBUSY");
}

static bool of_truncation(const struct known *known)
{
    enum call call = known->call.call;
    return known->truncated_for_reading && (call == READ || call == TELL_FILE || call == LSEEK || call == SPLICE);
}

static bool of_shared_page(const struct known *known)
{
    return known->wrote_after_splice && (are(known, "data ", "data ") || are(known, "file ", "file "))
        && strlen(known->here) == strlen(known->host);
}

static bool of_mode_before_offset(const struct known *known)
{
    return known->call.call == SPLICE && are(known, "EBADF", "ESPIPE");
}

static bool of_broken_target(const struct known *known)
{
    return is_move(known) && starts(known->here, "EPIPE") && !starts(known->host, "EPIPE");
}

static bool of_end_of_source(const struct known *known)
{
    return is_move(known) && strcmp(known->here, "count 0") == 0 && would_wait(known->host);
}

static bool of_first_offset(const struct known *known)
{
    return known->moved && !known->truncated_for_reading && are(known, "file ", "file ") && strlen(known->here) > strlen(known->host);
}

static bool of_append_in_splice(const struct known *known)
{
    return known->call.call == SPLICE && known->goes_on && known->set_flags && are(known, "count ", "EINVAL");
}

static bool of_append_in_splice_in_file(const struct known *known)
{
    return known->moved && known->set_flags && are(known, "file ", "file ");
}

static bool of_hung(const struct known *known)
{
    return known->call.call == POLL && lacks_only(known->here, known->host, "hup");
}

static bool of_taken_descriptor(const struct known *known)
{
    return known->open_waited && (are(known, "fd ", "fd ") || are(known, "fds ", "fds "));
}

static bool of_full_table(const struct known *known)
{
    return (known->call.call == OPEN) && strcmp(known->host, "EMFILE") == 0 && starts(known->here, "E");
}

static bool of_way_of_waiting(const struct known *known)
{
    return known->goes_on && known->set_flags && starts(known->here, "parked ") && !starts(known->host, "parked ");
}

static bool of_kept_direct(const struct known *known)
{
    bool of_flags = known->call.call == GET_FL && strstr(known->here, "direct") != NULL && strstr(known->host, "direct") == NULL;
    return known->made_packets && known->set_flags && (of_flags || reads_others(known));
}

static bool of_packets_moved(const struct known *known)
{
    return is_move(known) && strcmp(known->here, "EINVAL") == 0 && known->made_packets;
}

static bool of_far_seek(const struct known *known)
{
    return known->call.call == LSEEK && are(known, "EOVERFLOW", "EINVAL");
}

static bool of_size_of_minus_one(const struct known *known)
{
    return known->call.call == SET_SZ && known->call.length == UINT32_MAX && are(known, "EPERM", "EINVAL");
}

static bool of_great_size(const struct known *known)
{
    return known->call.call == SET_SZ && are(known, "EPERM", "EINVAL");
}

static bool of_far_read(const struct known *known)
{
    bool is_source = known->call.call == SPLICE && (count_of(known->here) == 0 || would_wait(known->here));
    return strcmp(known->host, "EINVAL") == 0 && (is_source || (known->call.call == READ && strcmp(known->here, "data -") == 0));
}

static bool of_far_write(const struct known *known)
{
    return (known->call.call == WRITE || known->call.call == SPLICE) && are(known, "EFBIG", "EINVAL");
}

static bool of_far_append(const struct known *known)
{
    return known->call.call == WRITE && are(known, "count ", "EINVAL");
}

static bool of_descriptions(const struct known *known)
{
    return strcmp(known->here, "ENFILE") == 0;
}

static bool of_numbers(const struct known *known)
{
    return known->spent || strcmp(known->here, "calls spent") == 0 || strcmp(known->host, "calls spent") == 0;
}

/* A large write that waits has taken other bytes, which its answer, a read or a poll tells. */
static bool of_turns(const struct known *known)
{
    enum call call = known->call.call;
    bool goes_on = known->goes_on && call == WRITE && known->call.byte_count > PIPE_BUF_HERE;
    return goes_on || (known->large_waited && (reads_others(known) || call == POLL || call == WRITE || is_move(known)));
}

static const struct {
    bool (*holds)(const struct known *known);
    const char *row;
} ROWS[] = {
    { of_numbers, "pids, `EAGAIN` at the limit on processes, `ENFILE`, and the numbers of parked calls" },
    { of_descriptions, "open file descriptions" },
    { of_taken_descriptor, "An open that waits takes its descriptor when it is answered." },
    { of_full_table, "An open checks the name before the table." },
    { of_mode_before_offset, "A splice checks the modes of its descriptors before it checks an offset." },
    { of_broken_target, "If the target of a splice or a tee has no reader, the call says so first, and one that waits ends." },
    { of_end_of_source, "A splice tells the end of its source before it looks whether the target is full." },
    { of_packets_moved, "A splice and a tee of a packet pipe are refused, whichever side it is." },
    { of_way_of_waiting, "A call that waits keeps the way of waiting with which it began." },
    { of_append_in_splice, "A splice that waits doesn't look again whether the file has `APPEND`." },
    { of_append_in_splice_in_file, "A splice that waits doesn't look again whether the file has `APPEND`." },
    { of_small_write, "A small write goes in if there is room for its bytes." },
    { of_large_write, "A large write that doesn't wait goes in as far as there is room." },
    { of_move, "A splice and a tee go as far as there is room." },
    { of_room_for_poll, "A pipe is ready for a write if there is room for 4,096 bytes." },
    { of_capacity, "A capacity is refused if the pipe holds more bytes." },
    { of_hung, "The pipe itself keeps whether it is hung, so a poll tells it of every reader." },
    { of_far_seek, "a seek past the greatest offset" },
    { of_size_of_minus_one, "a size of -1, which `F_SETPIPE_SZ` takes as 4,294,967,295" },
    { of_great_size, "a size above 2,147,483,648" },
    { of_far_read, "a read or a splice that reaches past the greatest offset" },
    { of_far_write, "a write or a splice that reaches past it" },
    { of_far_append, "a write under `APPEND` from there" },
    { of_truncation, "`TRUNC` changes no file that is opened for reading only. POSIX doesn't say what it does there." },
    { of_shared_page, "A splice takes the bytes as they are when it moves them." },
    { of_first_offset, "A splice that waits writes to a file at the offset that the file has when the bytes come." },
    { of_kept_direct, "*SetFl* doesn't clear `DIRECT`." },
    { of_turns, "how much a large write that waits takes in each turn, and which of several waiting calls goes on first" },
};

/* Notes what a line before the difference did. */
static void note_line(struct known *known, const struct request *request)
{
    known->truncated_for_reading |= request->call == OPEN && request->mode == O_RDONLY && (request->flags & O_TRUNC) != 0;
    known->wrote_after_splice |= known->moved && (request->call == WRITE || request->call == SPLICE);
    known->moved |= request->call == SPLICE;
    known->made_packets |= request->call == PIPE && (request->flags & O_DIRECT) != 0;
    known->set_flags |= request->call == SET_FL;
}

const char *row_of(const struct difference *difference)
{
    const struct script *script = difference->script;
    struct known known = { .here = difference->here,
        .host = difference->host,
        .large_waited = difference->large_waited,
        .open_waited = difference->open_waited,
        .spent = difference->spent };
    size_t place = 0, length;
    const char *line;
    for (size_t number = 1; number < difference->line->number && next_line(script, &place, &line, &length); number++) {
        struct request request;
        parse_line(line, length, script->version_2, &request, NULL);
        note_line(&known, &request);
    }
    known.goes_on = difference->begun_at != NULL;
    known.call = asked_by(known.goes_on ? difference->begun_at : difference->line, script->version_2);
    for (size_t i = 0; i < sizeof ROWS / sizeof ROWS[0]; i++)
        if (ROWS[i].holds(&known))
            return ROWS[i].row;
    return NULL;
}

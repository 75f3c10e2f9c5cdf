/* The texts of replies: docs/RULES.md, Scripts. */
#include "beside.h"

#include <stdarg.h>

/* A text that grows. It is null once memory ran out. */
struct growing {
    char *text;
    size_t length, room;
};

static void add(struct growing *all, const char *form, ...)
{
    va_list words;
    while (all->text != NULL) {
        size_t room = all->room - all->length;
        va_start(words, form);
        int count = vsnprintf(all->text + all->length, room, form, words);
        va_end(words);
        if (count < 0 || (size_t)count < room) {
            all->length += count < 0 ? 0 : (size_t)count;
            return;
        }
        char *longer = realloc(all->text, all->room = 2 * (all->room + (size_t)count + 1));
        if (longer == NULL)
            free(all->text);
        all->text = longer;
    }
}

static struct growing empty(size_t room)
{
    struct growing all = { malloc(room), 0, room };
    if (all.text != NULL)
        all.text[0] = '\0';
    return all;
}

static void add_digits(struct growing *all, const uint8_t *from, size_t count)
{
    for (size_t i = 0; i < count; i++)
        add(all, "%02x", from[i]);
}

static size_t run_of(const uint8_t *from, size_t count)
{
    size_t length = 1;
    while (length < count && from[length] == from[0])
        length++;
    return length;
}

/* Runs of at least four equal bytes are pieces of their own; what is between two of them is one piece. */
static void add_runs(struct growing *all, const uint8_t *from, size_t count)
{
    size_t shown = 0;
    for (size_t place = 0; place < count;) {
        size_t run = run_of(from + place, count - place);
        if (run >= 4) {
            if (shown < place) {
                add(all, shown == 0 ? "" : "+");
                add_digits(all, from + shown, place - shown);
            }
            add(all, place == 0 ? "%zu*%02x" : "+%zu*%02x", run, from[place]);
            shown = place + run;
        }
        place += run;
    }
    if (shown < count) {
        add(all, shown == 0 ? "" : "+");
        add_digits(all, from + shown, count - shown);
    }
}

char *bytes_text(const char *word, const uint8_t *bytes, size_t count, bool by_runs)
{
    struct growing all = empty(by_runs ? 64 : 2 * count + 64);
    add(&all, "%s ", word);
    if (count == 0)
        add(&all, "-");
    else if (by_runs)
        add_runs(&all, bytes, count);
    else
        add_digits(&all, bytes, count);
    return all.text;
}

static void add_mask(struct growing *all, int mask)
{
    static const struct {
        const char *name;
        int bit;
    } EVENTS[] = { { "in", POLLIN }, { "out", POLLOUT }, { "err", POLLERR }, { "hup", POLLHUP }, { "nval", POLLNVAL } };
    const char *between = " ";
    for (size_t i = 0; i < sizeof EVENTS / sizeof EVENTS[0]; i++)
        if ((mask & EVENTS[i].bit) != 0) {
            add(all, "%s%s", between, EVENTS[i].name);
            between = ",";
        }
    if (between[0] == ' ')
        add(all, " -");
}

static void add_flags(struct growing *all, int flags)
{
    static const char *const MODES[] = { [O_RDONLY] = "r", [O_WRONLY] = "w", [O_RDWR] = "rw", [O_ACCMODE] = "none" };
    const char *between = " ";
    add(all, "flags %s", MODES[flags & O_ACCMODE]);
    for (int i = 0; i < 3; i++) {
        static const int BITS[] = { O_APPEND, O_NONBLOCK, O_DIRECT };
        static const char *const NAMES[] = { "append", "nonblock", "direct" };
        if ((flags & BITS[i]) != 0) {
            add(all, "%s%s", between, NAMES[i]);
            between = ",";
        }
    }
    if (between[0] == ' ')
        add(all, " -");
}

static void add_error(struct growing *all, const struct answer *answer)
{
    const char *name = strerrorname_np(answer->error);
    if (name == NULL)
        add(all, "error %d", answer->error);
    else
        add(all, "%s", name);
    if (answer->sigpipe)
        add(all, " sigpipe");
}

static void add_value(struct growing *all, const struct request *request, const struct answer *answer)
{
    switch (request->call) {
    case PIPE:
        add(all, "fds %d %d", answer->ends[0], answer->ends[1]);
        break;
    case OPEN:
    case DUP:
    case DUP2:
    case DUP_FD:
        add(all, "fd %" PRId64, answer->value);
        break;
    case WRITE:
    case SPLICE:
    case TEE:
        add(all, answer->sigpipe ? "count %" PRId64 " sigpipe" : "count %" PRId64, answer->value);
        break;
    case POLL:
        add(all, "masks %" PRId64, answer->value);
        for (size_t i = 0; i < request->entry_count; i++)
            add_mask(all, answer->entries[i].revents);
        break;
    case LSEEK:
        add(all, "offset %" PRId64, answer->value);
        break;
    case GET_FL:
        add_flags(all, (int)answer->value);
        break;
    case GET_SZ:
    case SET_SZ:
        add(all, "size %" PRId64, answer->value);
        break;
    default:
        add(all, "ok");
    }
}

char *answer_text(const struct request *request, const struct answer *answer, bool by_runs)
{
    if (answer->outcome == DONE && request->call == READ)
        return bytes_text("data", shared->bytes, (size_t)answer->value, by_runs);
    struct growing all = empty(128);
    if (answer->outcome == FAULT)
        add_error(&all, answer);
    else
        add_value(&all, request, answer);
    return all.text;
}

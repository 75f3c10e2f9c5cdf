/* The lines of a script: docs/RULES.md, Scripts. */
#include "beside.h"

struct named {
    const char *name;
    int bits;
};

static const struct named PIPE_FLAGS_1[] = { { "nonblock", O_NONBLOCK }, { NULL, 0 } };
static const struct named PIPE_FLAGS_2[] = { { "nonblock", O_NONBLOCK }, { "direct", O_DIRECT }, { NULL, 0 } };
static const struct named OPEN_FLAGS[] = { { "creat", O_CREAT }, { "excl", O_EXCL }, { "trunc", O_TRUNC }, { "append", O_APPEND },
    { "nonblock", O_NONBLOCK }, { NULL, 0 } };
static const struct named SPLICE_FLAGS[] = { { "move", SPLICE_F_MOVE }, { "nonblock", SPLICE_F_NONBLOCK }, { "more", SPLICE_F_MORE },
    { "gift", SPLICE_F_GIFT }, { NULL, 0 } };
static const struct named EVENTS[] = { { "in", POLLIN }, { "out", POLLOUT }, { "err", POLLERR }, { "hup", POLLHUP },
    { "nval", POLLNVAL }, { NULL, 0 } };
static const struct named MODES[] = { { "r", O_RDONLY }, { "w", O_WRONLY }, { "rw", O_RDWR }, { NULL, 0 } };
static const struct named WHENCES[] = { { "set", SEEK_SET }, { "cur", SEEK_CUR }, { "end", SEEK_END }, { NULL, 0 } };

/* A word of a line. It doesn't end with a NUL. */
struct word {
    const char *at;
    size_t length;
};

/* What is left of a line, and where its parts go. */
struct reader {
    const char *at, *end;
    bool version_2;
    struct request *request;
    uint8_t *bytes;
    int fds, offsets;
};

bool names_version_2(const char *text, size_t length)
{
    static const char HEADER[] = "piperun 2";
    const char *end = memchr(text, '\n', length);
    if (end != NULL)
        length = (size_t)(end - text);
    if (length > 0 && text[length - 1] == '\r')
        length--;
    return length == sizeof HEADER - 1 && memcmp(text, HEADER, length) == 0;
}

bool next_line(const struct script *script, size_t *place, const char **line, size_t *length)
{
    if (*place >= script->length)
        return false;
    *line = script->text + *place;
    const char *end = memchr(*line, '\n', script->length - *place);
    *length = end == NULL ? script->length - *place : (size_t)(end - *line);
    *place += *length + 1;
    return true;
}

static bool next_word(struct reader *reader, struct word *word)
{
    while (reader->at < reader->end && (*reader->at == ' ' || *reader->at == '\t'))
        reader->at++;
    word->at = reader->at;
    while (reader->at < reader->end && *reader->at != ' ' && *reader->at != '\t')
        reader->at++;
    word->length = (size_t)(reader->at - word->at);
    return word->length > 0;
}

static bool is(struct word word, const char *text)
{
    return strlen(text) == word.length && memcmp(word.at, text, word.length) == 0;
}

/* A number of 1 to 20 digits, at most `most`. */
static bool number(struct word word, uint64_t most, uint64_t *value)
{
    *value = 0;
    if (word.length < 1 || word.length > 20)
        return false;
    for (size_t i = 0; i < word.length; i++) {
        unsigned digit = (unsigned)word.at[i] - '0';
        if (digit > 9 || *value > (UINT64_MAX - digit) / 10)
            return false;
        *value = *value * 10 + digit;
    }
    return *value <= most;
}

/* A number that may have a sign, from -most-1 to most. */
static bool signed_number(struct word word, int64_t most, int64_t *value)
{
    bool negative = word.length > 0 && word.at[0] == '-';
    uint64_t size;
    if (negative) {
        word.at++;
        word.length--;
    }
    if (!number(word, (uint64_t)most + negative, &size))
        return false;
    *value = negative ? (int64_t)(0 - size) : (int64_t)size;
    return true;
}

/* The bits of names that commas join. */
static bool flags(struct word word, const struct named *table, bool one, int *bits)
{
    const char *end = word.at + word.length;
    for (const char *at = word.at;; at++) {
        const char *comma = one ? NULL : memchr(at, ',', (size_t)(end - at));
        struct word name = { at, (size_t)((comma == NULL ? end : comma) - at) };
        const struct named *row = table;
        while (row->name != NULL && !is(name, row->name))
            row++;
        if (row->name == NULL)
            return false;
        *bits |= row->bits;
        if (comma == NULL)
            return true;
        at = comma;
    }
}

static int digit(char character)
{
    if (character >= '0' && character <= '9')
        return character - '0';
    character |= 0x20;
    return character >= 'a' && character <= 'f' ? character - 'a' + 10 : -1;
}

static int byte_at(const char *at)
{
    int high = digit(at[0]), low = digit(at[1]);
    return high < 0 || low < 0 ? -1 : high * 16 + low;
}

static bool name(struct word word, struct request *request)
{
    request->name_length = 0;
    if (is(word, "-"))
        return true;
    for (size_t i = 0; i < word.length; i++) {
        int byte = (unsigned char)word.at[i];
        if (byte < 33 || byte > 126)
            return false;
        if (byte == '%') {
            if (i + 2 >= word.length || (byte = byte_at(word.at + i + 1)) < 0)
                return false;
            i += 2;
        }
        if (request->name_length < MOST_NAME)
            request->name[request->name_length++] = (char)byte;
    }
    request->name[request->name_length] = '\0';
    return true;
}

/* The bytes of a piece: digits, or N*hh. With `into` they are put there, else only counted. */
static bool piece(struct word word, size_t *count, uint8_t *into)
{
    const char *star = memchr(word.at, '*', word.length);
    uint64_t times = 1;
    struct word digits = word;
    if (star != NULL) {
        struct word front = { word.at, (size_t)(star - word.at) };
        digits = (struct word){ star + 1, word.length - front.length - 1 };
        if (!number(front, UINT64_MAX, &times) || digits.length != 2)
            return false;
    }
    if (digits.length == 0 || digits.length % 2 != 0)
        return false;
    for (size_t i = 0; i < digits.length; i += 2)
        if (byte_at(digits.at + i) < 0)
            return false;
    if (times > MOST_BYTES || *count + times * (digits.length / 2) > MOST_BYTES)
        *count = MOST_BYTES + 1;
    for (uint64_t i = 0; into != NULL && star != NULL && i < times; i++)
        into[*count + i] = (uint8_t)byte_at(digits.at);
    for (size_t i = 0; into != NULL && star == NULL && i < digits.length; i += 2)
        into[*count + i / 2] = (uint8_t)byte_at(digits.at + i);
    if (*count <= MOST_BYTES)
        *count += times * (digits.length / 2);
    return true;
}

/* The pieces of a word, which + joins in version 2. */
static bool pieces(struct word word, bool version_2, size_t *count, uint8_t *into)
{
    const char *end = word.at + word.length;
    *count = 0;
    for (const char *at = word.at;; at++) {
        const char *plus = version_2 ? memchr(at, '+', (size_t)(end - at)) : NULL;
        if (!piece((struct word){ at, (size_t)((plus == NULL ? end : plus) - at) }, count, into))
            return false;
        if (plus == NULL)
            return *count <= MOST_BYTES;
        at = plus;
    }
}

static bool content(struct reader *reader, struct word word)
{
    size_t *count = &reader->request->byte_count;
    if (is(word, "-"))
        return true;
    /* all are looked at before any is made */
    return pieces(word, reader->version_2, count, NULL) && (reader->bytes == NULL || pieces(word, reader->version_2, count, reader->bytes));
}

/* FD:MASK. Entries behind the 257th are looked at, and no more: so many are too many in any case. */
static bool entry(struct request *request, struct word word)
{
    const char *colon = memchr(word.at, ':', word.length);
    int64_t fd;
    int bits = 0;
    if (colon == NULL || !signed_number((struct word){ word.at, (size_t)(colon - word.at) }, INT32_MAX, &fd))
        return false;
    struct word mask = { colon + 1, word.length - (size_t)(colon + 1 - word.at) };
    if (!is(mask, "-") && !flags(mask, EVENTS, false, &bits))
        return false;
    if (request->entry_count <= OPEN_MAX_HERE)
        request->entries[request->entry_count++] = (struct pollfd){ .fd = (int)fd, .events = (short)bits };
    return true;
}

static bool offset(struct reader *reader, struct word word)
{
    int place = reader->offsets++;
    uint64_t value = 0;
    reader->request->has_offset[place] = !is(word, "-");
    if (reader->request->has_offset[place] && !number(word, UINT64_MAX, &value))
        return false;
    reader->request->offset[place] = (int64_t)value;
    return true;
}

/* Reads a word that is a list of names. */
static bool take_flags(struct reader *reader, char form, struct word word)
{
    struct request *request = reader->request;
    switch (form) {
    case 'w':
        return flags(word, WHENCES, true, &request->whence);
    case 'm':
        return flags(word, MODES, true, &request->mode);
    case 'P':
        return flags(word, reader->version_2 ? PIPE_FLAGS_2 : PIPE_FLAGS_1, !reader->version_2, &request->flags);
    case 'F':
        return is(word, "-") || flags(word, OPEN_FLAGS, false, &request->flags);
    case 'O':
        return flags(word, OPEN_FLAGS, false, &request->flags);
    default:
        return flags(word, SPLICE_FLAGS, false, &request->flags);
    }
}

/* Reads a word of a form. */
static bool take(struct reader *reader, char form, struct word word)
{
    struct request *request = reader->request;
    uint64_t value = 0;
    int64_t with_sign = 0;
    bool good = true;
    switch (form) {
    case 'f':
        good = signed_number(word, INT32_MAX, &with_sign);
        request->fd[reader->fds++] = (int32_t)with_sign;
        return good;
    case 'i':
        good = signed_number(word, INT32_MAX, &with_sign);
        request->least = (int32_t)with_sign;
        return good;
    case 'n':
        good = number(word, UINT32_MAX, &value);
        request->length = (uint32_t)value;
        return good;
    case 'c':
        return number(word, UINT64_MAX, &request->number);
    case 'o':
        return offset(reader, word);
    case 'l':
        return signed_number(word, INT64_MAX, &request->seek);
    case 'b':
        return content(reader, word);
    case 'N':
        return name(word, request);
    case 'p':
        request->waits = is(word, "wait");
        return request->waits || is(word, "now");
    case '*':
        return entry(request, word);
    default:
        return take_flags(reader, form, word);
    }
}

/* The calls, each with the forms of its words. What is behind ? may lack, and * is any number of entries. */
static const struct form {
    const char *name;
    enum call call;
    const char *words;
} ALONE[] = { { "start", START, "" }, { "resume", RESUME, "c" }, { "interrupt", INTERRUPT, "c" }, { "file", TELL_FILE, "N" },
    { NULL, ASKS_NOTHING, "" } },
  CALLS[] = { { "pipe", PIPE, "?P" }, { "mkfifo", MKFIFO, "N" }, { "open", OPEN, "Nm?O" }, { "unlink", UNLINK, "N" },
      { "read", READ, "fn" }, { "write", WRITE, "fb" }, { "splice", SPLICE, "fofon?S" }, { "tee", TEE, "ffn?S" }, { "poll", POLL, "p*" },
      { "dup", DUP, "f" }, { "dup2", DUP2, "ff" }, { "dupfd", DUP_FD, "fi" }, { "close", CLOSE, "f" }, { "lseek", LSEEK, "flw" },
      { "getfl", GET_FL, "f" }, { "setfl", SET_FL, "fF" }, { "getsz", GET_SZ, "f" }, { "setsz", SET_SZ, "fn" }, { "fork", FORK, "" },
      { "exit", EXIT, "" }, { NULL, ASKS_NOTHING, "" } };

/* Reads the words of a form, up to the line's end. */
static bool take_all(struct reader *reader, const char *form)
{
    struct word word;
    bool may_lack = false;
    for (; *form != '\0'; form++) {
        if (*form == '?') {
            may_lack = true;
        } else if (*form == '*') {
            while (next_word(reader, &word))
                if (!take(reader, '*', word))
                    return false;
        } else if (!next_word(reader, &word)) {
            return may_lack;
        } else if (!take(reader, *form, word)) {
            return false;
        }
    }
    return !next_word(reader, &word);
}

static const struct form *form_of(const struct form *table, struct word word)
{
    while (table->name != NULL && !is(word, table->name))
        table++;
    return table->name == NULL ? NULL : table;
}

bool parse_line(const char *line, size_t length, bool version_2, struct request *request, uint8_t *bytes)
{
    if (length > 0 && line[length - 1] == '\r')
        length--;
    memset(request, 0, sizeof *request);
    struct reader reader = { .at = line, .end = line + length, .version_2 = version_2, .request = request, .bytes = bytes };
    struct word word;
    if (!next_word(&reader, &word) || word.at[0] == '#')
        return true;
    const struct form *form = form_of(ALONE, word);
    if (form == NULL) {
        uint64_t pid;
        struct word called;
        if (!number(word, UINT32_MAX, &pid) || !next_word(&reader, &called) || (form = form_of(CALLS, called)) == NULL)
            return false;
        request->pid = (uint32_t)pid;
    }
    request->call = form->call;
    return take_all(&reader, form->words);
}

struct request asked_by(const struct line *line, bool version_2)
{
    struct request request;
    parse_line(line->at, line->length, version_2, &request, NULL);
    return request;
}

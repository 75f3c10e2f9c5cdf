/* Talks with piperun --live as with another program: it says a line, and takes the answer before it says the next. What is wanted is told here
 * by docs/RULES.md.
 *
 *   coprocess PIPERUN
 *
 * It does so over two pipes of the host, with a bad line among the others, and over a pseudo terminal. */
#include <errno.h>
#include <fcntl.h>
#include <poll.h>
#include <signal.h>
#include <stdarg.h>
#include <stdbool.h>
#include <stdio.h>
#include <stdlib.h>
#include <string.h>
#include <sys/wait.h>
#include <termios.h>
#include <time.h>
#include <unistd.h>

enum {
    LINES_BY_PIPES = 10000,
    LINES_BY_TERMINAL = 400,
    /* milliseconds, of one answer */
    DEADLINE = 10000,
    /* milliseconds in which no answer to half a line may come */
    SHORTLY = 50,
    MOST_BYTES = 4096,
    ROOM = 2 * MOST_BYTES + 64
};

struct stream {
    int fd;
    size_t held;
    char bytes[ROOM];
};

struct talk {
    pid_t child;
    int to;
    struct stream answers;
    struct stream complaints;
    unsigned long lines;
    unsigned long next_call;
    unsigned drawn;
    bool broken;
};

static void need(bool condition, const char *what)
{
    if (!condition) {
        perror(what);
        exit(1);
    }
}

/* The talk can't go on, or isn't as it should be: the first line about it tells why. */
static void breaks(struct talk *talk, const char *why, const char *got, const char *wanted)
{
    if (!talk->broken)
        printf("line %lu: %s: '%.200s', and not '%.200s'\n", talk->lines, why, got, wanted);
    talk->broken = true;
}

static long long now(void)
{
    struct timespec time;
    need(clock_gettime(CLOCK_MONOTONIC, &time) == 0, "clock_gettime");
    return time.tv_sec * 1000LL + time.tv_nsec / 1000000;
}

/* Takes more bytes of a stream: whether there were any before that time. */
static bool takes_more(struct stream *stream, long long until)
{
    for (;;) {
        long long left = until - now();
        struct pollfd entry = { .fd = stream->fd, .events = POLLIN };
        int found = poll(&entry, 1, left > 0 ? (int)left : 0);
        if (found < 0 && errno == EINTR)
            continue;
        if (found != 1 || stream->held == ROOM)
            return false;
        ssize_t count = read(stream->fd, stream->bytes + stream->held, ROOM - stream->held);
        if (count > 0)
            stream->held += (size_t)count;
        return count > 0;
    }
}

/* Takes a line of a stream, without its line feed: whether one comes before the deadline. */
static bool takes_line(struct stream *stream, char line[ROOM])
{
    long long until = now() + DEADLINE;
    char *end;
    while ((end = memchr(stream->bytes, '\n', stream->held)) == NULL)
        if (!takes_more(stream, until))
            return false;
    size_t length = (size_t)(end - stream->bytes);
    memcpy(line, stream->bytes, length);
    line[length] = '\0';
    stream->held -= length + 1;
    memmove(stream->bytes, end + 1, stream->held);
    return true;
}

/* The next line of a stream is the wanted one. */
static void hears(struct talk *talk, struct stream *stream, const char *wanted)
{
    char line[ROOM];
    if (talk->broken)
        return;
    if (!takes_line(stream, line))
        breaks(talk, "no whole line came", "", wanted);
    else if (strcmp(line, wanted) != 0)
        breaks(talk, "another line came", line, wanted);
}

static void says_bytes(struct talk *talk, const char *bytes)
{
    size_t length = strlen(bytes);
    while (length > 0 && !talk->broken) {
        ssize_t count = write(talk->to, bytes, length);
        if (count < 0 && errno == EINTR)
            continue;
        if (count <= 0) {
            breaks(talk, "it takes no line", strerror(errno), bytes);
            return;
        }
        bytes += count;
        length -= (size_t)count;
    }
}

static void says(struct talk *talk, const char *line)
{
    talk->lines++;
    says_bytes(talk, line);
    says_bytes(talk, "\n");
}

/* Says the line of the format, and the answer is the wanted one. */
static void asks(struct talk *talk, const char *wanted, const char *format, ...)
{
    char line[ROOM];
    va_list arguments;
    va_start(arguments, format);
    vsnprintf(line, sizeof line, format, arguments);
    va_end(arguments);
    says(talk, line);
    hears(talk, &talk->answers, wanted);
}

static unsigned draw(struct talk *talk, unsigned below)
{
    talk->drawn = talk->drawn * 1103515245u + 12345u;
    return (talk->drawn >> 16) % below;
}

/* Some bytes in digits, by a text of the form, as "data 6162"; none are "-". */
static void write_digits(char text[ROOM], const char *form, unsigned first, size_t count)
{
    char digits[2 * MOST_BYTES + 1] = "-";
    for (size_t i = 0; i < count; i++)
        sprintf(digits + 2 * i, "%02x", (unsigned)((first + i) % 256));
    snprintf(text, ROOM, form, digits);
}

static void write_number(char text[ROOM], const char *form, unsigned long number)
{
    snprintf(text, ROOM, form, number);
}

/* The bytes of a write come by two reads. If the first takes all, the second waits, and is interrupted. */
static void bytes_go_through(struct talk *talk)
{
    char text[ROOM], wanted[ROOM];
    unsigned first = draw(talk, 256), count = 1 + draw(talk, 20), part = draw(talk, count + 1);
    write_digits(text, "1 write 1 %s", first, count);
    write_number(wanted, "count %lu", count);
    asks(talk, wanted, "%s", text);
    write_digits(wanted, "data %s", first, part);
    asks(talk, wanted, "1 read 0 %u", part);
    if (part < count) {
        write_digits(wanted, "data %s", first + part, count - part);
        asks(talk, wanted, "1 read 0 1000");
        return;
    }
    unsigned long call = talk->next_call++;
    write_number(wanted, "parked %lu", call);
    asks(talk, wanted, "1 read 0 1000");
    asks(talk, "EINTR", "interrupt %lu", call);
}

static void read_waits(struct talk *talk)
{
    char text[ROOM], parked[ROOM], wanted[ROOM];
    unsigned first = draw(talk, 256), count = 1 + draw(talk, 9);
    unsigned long call = talk->next_call++;
    write_number(parked, "parked %lu", call);
    asks(talk, parked, "1 read 0 9");
    asks(talk, parked, "resume %lu", call);
    write_digits(text, "1 write 1 %s", first, count);
    write_number(wanted, "count %lu", count);
    asks(talk, wanted, "%s", text);
    write_digits(wanted, "data %s", first, count);
    asks(talk, wanted, "resume %lu", call);
    asks(talk, "no call", "resume %lu", call);
}

/* The pipe has 4,096 bytes, so one more waits for room. */
static void write_waits(struct talk *talk)
{
    char text[ROOM], wanted[ROOM];
    unsigned first = draw(talk, 256), taken = 1 + draw(talk, MOST_BYTES);
    unsigned long call = talk->next_call++;
    write_digits(text, "1 write 1 %s", first, MOST_BYTES);
    asks(talk, "count 4096", "%s", text);
    write_number(wanted, "parked %lu", call);
    asks(talk, wanted, "1 write 1 %02x", first);
    asks(talk, "masks 1 in -", "1 poll now 0:in 1:out");
    write_digits(wanted, "data %s", first, taken);
    asks(talk, wanted, "1 read 0 %u", taken);
    asks(talk, "count 1", "resume %lu", call);
    /* 4,096 is a multiple of 256, so that the last byte goes on with the others */
    write_digits(wanted, "data %s", first + taken, MOST_BYTES + 1 - taken);
    asks(talk, wanted, "1 read 0 5000");
}

static void offsets_and_refusals(struct talk *talk)
{
    char wanted[ROOM];
    unsigned offset = 1 + draw(talk, 10000), more = draw(talk, 10000);
    asks(talk, "ESPIPE", "1 lseek 0 0 set");
    asks(talk, "EBADF", "1 lseek 7 0 set");
    asks(talk, "EINVAL", "1 lseek 2 -1 set");
    write_number(wanted, "offset %lu", offset);
    asks(talk, wanted, "1 lseek 2 %u set", offset);
    asks(talk, "EOVERFLOW", "1 lseek 2 9223372036854775807 cur");
    write_number(wanted, "offset %lu", offset + more);
    asks(talk, wanted, "1 lseek 2 %u cur", more);
    asks(talk, "data -", "1 read 2 100");
    asks(talk, "EBADF", "1 write 0 61");
    asks(talk, "no process", "2 read 0 1");
}

static void begins(struct talk *talk)
{
    asks(talk, "pid 1", "start");
    asks(talk, "fds 0 1", "1 pipe");
    asks(talk, "size 4096", "1 setsz 1 4096");
    asks(talk, "fd 2", "1 open log rw creat");
}

/* Asks until so many lines were said. */
static void goes_on(struct talk *talk, unsigned long lines)
{
    while (talk->lines < lines && !talk->broken) {
        switch (draw(talk, 16)) {
        case 0: write_waits(talk); break;
        case 1: case 2: case 3: offsets_and_refusals(talk); break;
        case 4: case 5: case 6: case 7: read_waits(talk); break;
        default: bytes_go_through(talk);
        }
    }
}

/* A pipe whose ends no other program inherits. */
static void open_pipe(int ends[2])
{
    need(pipe(ends) == 0, "pipe");
    for (int i = 0; i < 2; i++)
        need(fcntl(ends[i], F_SETFD, FD_CLOEXEC) == 0, "fcntl");
}

/* Starts piperun --live on these descriptors, its error output on a pipe. */
static struct talk start_on(const char *piperun, int input, int output)
{
    int complaints[2];
    open_pipe(complaints);
    struct talk talk = { .next_call = 1, .drawn = 1 };
    talk.child = fork();
    need(talk.child >= 0, "fork");
    if (talk.child == 0) {
        signal(SIGPIPE, SIG_DFL);
        if (dup2(input, 0) == 0 && dup2(output, 1) == 1 && dup2(complaints[1], 2) == 2)
            execl(piperun, piperun, "--live", (char *)NULL);
        _exit(127);
    }
    close(complaints[1]);
    talk.complaints.fd = complaints[0];
    return talk;
}

static struct talk start_by_pipes(const char *piperun)
{
    int to[2], from[2];
    open_pipe(to);
    open_pipe(from);
    struct talk talk = start_on(piperun, to[0], from[1]);
    close(to[0]);
    close(from[1]);
    talk.to = to[1];
    talk.answers.fd = from[0];
    return talk;
}

/* Whether a stream has no more bytes, and ends before the deadline. */
static bool has_ended(struct stream *stream)
{
    struct pollfd entry = { .fd = stream->fd, .events = POLLIN };
    return stream->held == 0 && poll(&entry, 1, DEADLINE) == 1 && read(stream->fd, stream->bytes, 1) == 0;
}

/* The child, whose input has ended, ends before the deadline with the status, and told no more. It is killed if it doesn't. */
static void ends_with(struct talk *talk, int status)
{
    int ended = 0;
    long long until = now() + DEADLINE;
    pid_t found = 0;
    if (!talk->broken && !has_ended(&talk->complaints))
        breaks(talk, "it told more", "", "");
    while (!talk->broken && (found = waitpid(talk->child, &ended, WNOHANG)) == 0 && now() < until)
        poll(NULL, 0, 1);
    if (found != talk->child) {
        breaks(talk, "it didn't end", "", "");
        kill(talk->child, SIGKILL);
        waitpid(talk->child, &ended, 0);
    } else if (!WIFEXITED(ended) || WEXITSTATUS(ended) != status) {
        printf("it ended with %#x, and not status %d\n", (unsigned)ended, status);
        talk->broken = true;
    }
    close(talk->complaints.fd);
    close(talk->answers.fd);
}

/* Half a line has no answer, and the last line needs no line feed. */
static bool by_pipes(const char *piperun)
{
    struct talk talk = start_by_pipes(piperun);
    begins(&talk);
    says_bytes(&talk, "1 read");
    if (takes_more(&talk.answers, now() + SHORTLY))
        breaks(&talk, "half a line is answered", "", "");
    asks(&talk, "EBADF", " 7 1");
    goes_on(&talk, LINES_BY_PIPES);
    says_bytes(&talk, "1 lseek 0 0 set");
    close(talk.to);
    hears(&talk, &talk.answers, "ESPIPE");
    if (!talk.broken && !has_ended(&talk.answers))
        breaks(&talk, "it answered more", "", "");
    ends_with(&talk, 0);
    return !talk.broken;
}

/* A bad line is answered and told before any other line is said, and changes nothing. */
static bool with_a_bad_line(const char *piperun)
{
    char told[ROOM];
    struct talk talk = start_by_pipes(piperun);
    begins(&talk);
    goes_on(&talk, LINES_BY_PIPES / 20);
    says(&talk, "# a comment has no answer");
    asks(&talk, "bad line", "1 write 1 6");
    write_number(told, "piperun: line %lu: not a command", talk.lines);
    hears(&talk, &talk.complaints, told);
    goes_on(&talk, LINES_BY_PIPES / 10);
    close(talk.to);
    hears(&talk, &talk.complaints, "piperun: 1 bad lines");
    if (!talk.broken && !has_ended(&talk.answers))
        breaks(&talk, "it answered more", "", "");
    ends_with(&talk, 3);
    return !talk.broken;
}

/* Sets a terminal so that bytes pass as they are. A read waits for the first of them, or is at the end of the input if there is none. */
static void set_raw(int terminal, bool waits)
{
    struct termios modes;
    need(tcgetattr(terminal, &modes) == 0, "tcgetattr");
    modes.c_iflag &= (tcflag_t) ~(BRKINT | ICRNL | IGNBRK | IGNCR | INLCR | INPCK | ISTRIP | IXON | PARMRK);
    modes.c_oflag &= (tcflag_t)~OPOST;
    modes.c_lflag &= (tcflag_t) ~(ECHO | ECHONL | ICANON | IEXTEN | ISIG);
    modes.c_cflag = (modes.c_cflag & (tcflag_t) ~(CSIZE | PARENB)) | CS8;
    modes.c_cc[VMIN] = waits;
    modes.c_cc[VTIME] = 0;
    need(tcsetattr(terminal, TCSANOW, &modes) == 0, "tcsetattr");
}

static bool by_terminal(const char *piperun)
{
    int master = posix_openpt(O_RDWR | O_NOCTTY);
    need(master >= 0 && grantpt(master) == 0 && unlockpt(master) == 0 && fcntl(master, F_SETFD, FD_CLOEXEC) == 0, "posix_openpt");
    int terminal = open(ptsname(master), O_RDWR | O_NOCTTY);
    need(terminal >= 0 && fcntl(terminal, F_SETFD, FD_CLOEXEC) == 0, "a pseudo terminal");
    set_raw(terminal, true);
    struct talk talk = start_on(piperun, terminal, terminal);
    talk.to = master;
    talk.answers.fd = master;
    begins(&talk);
    goes_on(&talk, LINES_BY_TERMINAL);
    /* A read that waits takes the comment, and the next one finds the end. It may find that before the comment is there. */
    set_raw(terminal, false);
    says(&talk, "# the end");
    ends_with(&talk, 0);
    close(terminal);
    return !talk.broken;
}

static bool tells(const char *what, bool passed)
{
    printf("%s: %s\n", what, passed ? "as it should be" : "failed");
    return passed;
}

int main(int count, char **words)
{
    if (count != 2) {
        fprintf(stderr, "coprocess PIPERUN\n");
        return 2;
    }
    signal(SIGPIPE, SIG_IGN);
    bool passed = tells("10,000 lines over pipes", by_pipes(words[1]));
    passed = tells("a bad line", with_a_bad_line(words[1])) && passed;
    passed = tells("a pseudo terminal", by_terminal(words[1])) && passed;
    return passed ? 0 : 1;
}

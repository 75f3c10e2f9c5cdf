/* bindingclay_preload: calls that wait, signals, forks beside them, and FIFOs. */
#include "preload.h"

#include <sys/mman.h>
#include <sys/syscall.h>
#include <sys/time.h>

enum { LARGE = 300000, TICKS = 300, FORKS = 25, PIECES = 400, STACK = 1 << 23 };

/* A call that a thread makes. */
struct job {
    ssize_t (*call)(struct job *job);
    int fd, other;
    const char *name;
    char into[16];
    ssize_t answer;
    int error;
    _Atomic pid_t id;
    pthread_t thread;
};

static void *work(void *argument)
{
    struct job *job = argument;
    job->id = (pid_t)syscall(SYS_gettid);
    errno = 0;
    job->answer = job->call(job);
    job->error = errno;
    return NULL;
}

/* Begins a call in a thread with attributes, or null for none, and waits until that sleeps. */
static void begin_with(struct job *job, ssize_t (*call)(struct job *), const pthread_attr_t *attributes)
{
    job->call = call;
    job->id = 0;
    need(pthread_create(&job->thread, attributes, work, job) == 0, "a thread");
    while (job->id == 0)
        usleep(100);
    until_asleep(job->id);
}

static void begin(struct job *job, ssize_t (*call)(struct job *))
{
    begin_with(job, call, NULL);
}

static bool ends_so(struct job *job, ssize_t answer, int error)
{
    pthread_join(job->thread, NULL);
    errno = job->error;
    return job->answer == answer && (answer >= 0 || job->error == error);
}

static ssize_t a_read(struct job *job)
{
    return read(job->fd, job->into, sizeof job->into);
}

static ssize_t a_write(struct job *job)
{
    static char bytes[LARGE];
    for (int i = 0; i < LARGE; i++)
        bytes[i] = (char)(i % 251);
    return write(job->fd, bytes, LARGE);
}

static ssize_t a_splice(struct job *job)
{
    return splice(job->fd, NULL, job->other, NULL, 16, 0);
}

static ssize_t a_poll(struct job *job)
{
    struct pollfd entries[2] = { { .fd = job->fd, .events = POLLIN }, { .fd = job->other, .events = POLLIN } };
    return poll(entries, 2, -1) * 100 + entries[0].revents * 10 + entries[1].revents;
}

static ssize_t an_open(struct job *job)
{
    return open(job->name, O_RDONLY);
}

/* Whether the next LARGE bytes are those of a_write. */
static bool reads_all(int fd)
{
    static char into[LARGE];
    size_t got = 0;
    ssize_t count;
    while (got < LARGE && (count = read(fd, into + got, LARGE - got)) > 0)
        got += (size_t)count;
    for (int i = 0; i < LARGE && got == LARGE; i++)
        if (into[i] != (char)(i % 251))
            return false;
    return got == LARGE;
}

static void answered(void)
{
    int ends[2], more[2], sockets[2];
    struct job job = { .fd = 0 };
    new_pipe(ends, 0);
    new_pipe(more, 0);
    need(socketpair(AF_UNIX, SOCK_STREAM, 0, sockets) == 0, "socketpair");
    job.fd = ends[0];
    job.other = sockets[0];
    begin(&job, a_read);
    HOLDS(writes(ends[1], "hello") && ends_so(&job, 5, 0) && memcmp(job.into, "hello", 5) == 0);
    /* a poll of both kinds is woken by each */
    begin(&job, a_poll);
    HOLDS(writes(sockets[1], "s") && ends_so(&job, 100 + POLLIN, 0) && reads(sockets[0], "s"));
    begin(&job, a_poll);
    HOLDS(writes(ends[1], "p") && ends_so(&job, 100 + 10 * POLLIN, 0) && reads(ends[0], "p"));
    /* and by a write that itself waits for room */
    begin(&job, a_poll);
    struct job writer = { .fd = ends[1] };
    begin(&writer, a_write);
    HOLDS(ends_so(&job, 100 + 10 * POLLIN, 0) && reads_all(ends[0]) && ends_so(&writer, LARGE, 0));
    job.other = more[1];
    begin(&job, a_splice);
    HOLDS(writes(ends[1], "abc") && ends_so(&job, 3, 0) && reads(more[0], "abc"));
    begin(&job, a_read);
    HOLDS(close(ends[1]) == 0 && ends_so(&job, 0, 0) && close(ends[0]) == 0);
    OURS(more[0]);
    close_pipe(more);
    close_pipe(sockets);
}

/* ---- Signals ---- */

static _Atomic int handled, written;
static _Atomic int handler_writes_to = -1;

static void count_signal(int signal)
{
    int error = errno;
    (void)signal;
    handled++;
    int to = handler_writes_to;
    if (to >= 0 && write(to, "!", 1) != 1)
        abort();
    written += to >= 0;
    errno = error;
}

/* read: EINTR, if the handler has no SA_RESTART; a poll also if it has (signal(7)). A write that put in bytes answers their count. */
static void interrupted(void)
{
    int ends[2];
    struct job job = { .other = -1 };
    new_pipe(ends, 0);
    job.fd = ends[0];
    on_signal(SIGUSR1, count_signal, 0);
    begin(&job, a_read);
    HOLDS(pthread_kill(job.thread, SIGUSR1) == 0 && ends_so(&job, -1, EINTR) && handled == 1);
    job.fd = ends[1];
    begin(&job, a_write);
    HOLDS(pthread_kill(job.thread, SIGUSR1) == 0 && ends_so(&job, 65536, 0));
    static char into[65536];
    HOLDS(read(ends[0], into, sizeof into) == 65536);
    on_signal(SIGUSR1, count_signal, SA_RESTART);
    job.fd = ends[0];
    begin(&job, a_read);
    HOLDS(pthread_kill(job.thread, SIGUSR1) == 0);
    usleep(20000);
    until_asleep(job.id);
    HOLDS(handled == 3 && writes(ends[1], "on") && ends_so(&job, 2, 0));
    begin(&job, a_poll);
    HOLDS(pthread_kill(job.thread, SIGUSR1) == 0);
    pthread_join(job.thread, NULL);
    HOLDS(job.error == EINTR && handled == 4);
    OURS(ends[0]);
    close_pipe(ends);
}

static void broken(void)
{
    int ends[2];
    struct job job = { .fd = 0 };
    new_pipe(ends, 0);
    on_signal(SIGPIPE, count_signal, 0);
    handled = 0;
    HOLDS(close(ends[0]) == 0);
    FAILS(write(ends[1], "a", 1), EPIPE);
    HOLDS(handled == 1 && close(ends[1]) == 0);
    /* the reader goes while a write waits */
    new_pipe(ends, 0);
    job.fd = ends[1];
    begin(&job, a_write);
    HOLDS(close(ends[0]) == 0 && ends_so(&job, 65536, 0) && handled == 2);
    on_signal(SIGPIPE, SIG_IGN, 0);
    FAILS(write(ends[1], "a", 1), EPIPE);
    HOLDS(handled == 2 && close(ends[1]) == 0);
}

/* A handler writes to a pipe, whatever it interrupts: a wait, a call in the layer, or malloc. */
static void written_by_a_handler(void)
{
    int ends[2], lost[2], got = 0;
    char byte;
    struct itimerval often = { { 0, 500 }, { 0, 500 } }, never = { { 0, 0 }, { 0, 0 } };
    new_pipe(ends, 0);
    new_pipe(lost, O_NONBLOCK);
    on_signal(SIGALRM, count_signal, SA_RESTART);
    handler_writes_to = ends[1];
    setitimer(ITIMER_REAL, &often, NULL);
    for (int round = 0; got < TICKS; round++) {
        /* longer than a tick, and then shorter: the handler interrupts calls, and then a wait */
        for (int i = 0; i < (round % 2 == 0 ? 1000 : 20); i++) {
            free(malloc((size_t)(100 + 20 * i)));
            HOLDS(write(lost[1], "x", 1) == 1 && read(lost[0], &byte, 1) == 1);
        }
        got += read(ends[0], &byte, 1) == 1;
    }
    setitimer(ITIMER_REAL, &never, NULL);
    handler_writes_to = -1;
    HOLDS(fcntl(ends[0], F_SETFL, O_NONBLOCK) == 0);
    while (read(ends[0], &byte, 1) == 1)
        got++;
    HOLDS(got == written);
    OURS(ends[0]);
    close_pipe(ends);
    close_pipe(lost);
}

/* ---- Forks ---- */

static void end_child(pid_t child)
{
    int status = -1;
    HOLDS(waitpid(child, &status, 0) == child && status == 0);
}

/* Calls that wait as their pipe is moved go on, and lose no byte. */
static void forked(void)
{
    int ends[2], full[2];
    struct job reader = { .fd = 0 }, writer = { .fd = 0 };
    new_pipe(ends, 0);
    new_pipe(full, 0);
    reader.fd = ends[0];
    writer.fd = full[1];
    begin(&reader, a_read);
    begin(&writer, a_write);
    pid_t child = fork();
    if (child == 0)
        _exit(!writes(ends[1], "child"));
    end_child(child);
    MOVED(full[0]);
    HOLDS(ends_so(&reader, 5, 0) && memcmp(reader.into, "child", 5) == 0);
    HOLDS(reads_all(full[0]) && ends_so(&writer, LARGE, 0));
    close_pipe(ends);
    close_pipe(full);
}

/* A child has none of the threads whose calls wait, and nothing may look at their stacks there. Its own pipes are the layer's. */
static void forked_without_threads(void)
{
    int full[2], own[2];
    struct job writer = { .fd = 0 };
    pthread_attr_t attributes;
    void *stack = mmap(NULL, STACK, PROT_READ | PROT_WRITE, MAP_PRIVATE | MAP_ANONYMOUS | MAP_STACK, -1, 0);
    need(stack != MAP_FAILED && pthread_attr_init(&attributes) == 0 && pthread_attr_setstack(&attributes, stack, STACK) == 0, "a stack");
    for (int i = 0; i < 2; i++) {
        new_pipe(full, 0);
        writer.fd = full[1];
        begin_with(&writer, a_write, &attributes);
        pid_t child = fork();
        if (child == 0) {
            HOLDS(munmap(stack, STACK) == 0);
            new_pipe(own, 0);
            HOLDS(writes(own[1], "own") && reads(own[0], "own"));
            close_pipe(own);
            _exit(end());
        }
        end_child(child);
        HOLDS(reads_all(full[0]) && ends_so(&writer, LARGE, 0));
        close_pipe(full);
    }
    pthread_attr_destroy(&attributes);
    HOLDS(munmap(stack, STACK) == 0);
}

static void *write_pieces(void *argument)
{
    const int *ends = argument;
    char bytes[1500];
    for (int i = 0; i < PIECES; i++) {
        memset(bytes, i, sizeof bytes);
        HOLDS(write(ends[1], bytes, sizeof bytes) == sizeof bytes);
    }
    HOLDS(close(ends[1]) == 0);
    return NULL;
}

static void *read_pieces(void *argument)
{
    const int *ends = argument;
    char bytes[1500];
    size_t got = 0;
    ssize_t count;
    while ((count = read(ends[0], bytes, sizeof bytes)) > 0)
        for (ssize_t i = 0; i < count; i++, got++)
            if (bytes[i] != (char)(got / sizeof bytes))
                return HOLDS(!"a byte out of its order") ? argument : NULL;
    HOLDS(got == PIECES * sizeof bytes);
    return NULL;
}

/* Threads write and read while others fork: no byte is lost or out of its order. */
static void storm_of_forks(void)
{
    for (int i = 0; i < FORKS; i++) {
        int ends[2];
        need(pipe(ends) == 0, "pipe");
        pthread_t writer = thread_of(write_pieces, ends), reader = thread_of(read_pieces, ends);
        usleep((useconds_t)(100 * (i % 7)));
        pid_t child = fork();
        if (child == 0)
            _exit(0);
        pthread_join(writer, NULL);
        pthread_join(reader, NULL);
        end_child(child);
        HOLDS(close(ends[0]) == 0);
    }
}

/* ---- FIFOs ---- */

static void names(void)
{
    struct stat facts;
    struct job job = { .name = "fifo" };
    HOLDS(mkfifo("fifo", 0640) == 0 && stat("fifo", &facts) == 0 && S_ISFIFO(facts.st_mode) && (facts.st_mode & 0777) == 0640);
    FAILS(mkfifo("fifo", 0600), EEXIST);
    FAILS(open("fifo", O_WRONLY | O_NONBLOCK), ENXIO);
    begin(&job, an_open);
    int writer = open("fifo", O_WRONLY | O_CLOEXEC), reader;
    pthread_join(job.thread, NULL);
    reader = (int)job.answer;
    HOLDS(writer >= 0 && reader >= 0 && fcntl(writer, F_GETFD) == FD_CLOEXEC && writes(writer, "by name") && reads(reader, "by name"));
    HOLDS(fstat(reader, &facts) == 0 && (facts.st_mode & 0777) == 0640);
    HOLDS(rename("fifo", "renamed") == 0);
    int both = open("renamed", O_RDWR), late = open("renamed", O_RDONLY | O_NONBLOCK);
    HOLDS(close(writer) == 0 && writes(both, "again") && reads(late, "again"));
    HOLDS(unlink("renamed") == 0 && writes(both, "gone") && reads(reader, "gone"));
    FAILS(open("renamed", O_RDONLY), ENOENT);
    HOLDS(close(both) == 0 && reads(reader, "") && close(reader) == 0 && close(late) == 0);
    /* more than the layer takes at once */
    for (int i = 0; i < 300; i++) {
        HOLDS(mkfifo("often", 0600) == 0 && (both = open("often", O_RDWR)) >= 0);
        OURS(both);
        HOLDS(close(both) == 0 && unlink("often") == 0);
    }
}

/* A FIFO that is open, and one whose open waits, are the host's behind a fork. */
static void names_behind_a_fork(void)
{
    struct job job = { .name = "second" };
    HOLDS(mkfifo("first", 0600) == 0 && mkfifo("second", 0600) == 0);
    int both = open("first", O_RDWR | O_NONBLOCK), writer = open("first", O_WRONLY), copy = dup(both);
    HOLDS(writes(writer, "held"));
    begin(&job, an_open);
    pid_t child = fork();
    if (child == 0) {
        int second = open("second", O_WRONLY), first = open("first", O_WRONLY);
        _exit(!writes(second, "child") || !writes(first, " and more"));
    }
    pthread_join(job.thread, NULL);
    end_child(child);
    HOLDS(job.answer >= 0 && reads((int)job.answer, "child") && reads(both, "held and more"));
    FAILS(read(both, &child, 1), EAGAIN);
    HOLDS(fcntl(copy, F_SETFL, 0) == 0 && (fcntl(both, F_GETFL) & O_NONBLOCK) == 0 && close(copy) == 0);
    HOLDS((fcntl(writer, F_GETFL) & O_ACCMODE) == O_WRONLY && close(both) == 0 && close(writer) == 0 && close((int)job.answer) == 0);
    HOLDS(unlink("first") == 0 && unlink("second") == 0);
}

/* The word behind "layer" or "host" is an empty folder, of which BINDINGCLAY_PRELOAD_FIFOS tells too. */
int main(int count, char **words)
{
    need(count == 3 && chdir(words[2]) == 0, "a folder");
    is_over_layer = strcmp(words[1], "layer") == 0;
    names();
    answered();
    interrupted();
    broken();
    written_by_a_handler();
    names_behind_a_fork();
    forked();
    forked_without_threads();
    storm_of_forks();
    return end();
}

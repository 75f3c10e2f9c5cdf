/* bindingclay_preload: numbers, bytes, flags, polls, and moves to the host. */
#include "preload.h"

#include <limits.h>
#include <spawn.h>
#include <sys/epoll.h>
#include <sys/mman.h>

extern char **environ;

/* pipe: "the file descriptors shall be the two lowest available"; and so of dup and open, which is the host's. */
static void numbers(void)
{
    int first = open("/dev/null", O_RDONLY), ends[2], more[2];
    close(first);
    new_pipe(ends, 0);
    HOLDS(ends[0] == first && ends[1] == first + 1);
    int file = open("/dev/null", O_RDONLY), copy = dup(ends[0]);
    HOLDS(file == first + 2 && copy == first + 3);
    OURS(copy);
    HOLDS(close(ends[0]) == 0 && dup(ends[1]) == ends[0]);
    FAILS(read(ends[0], &first, 1), EBADF);
    HOLDS(fcntl(copy, F_DUPFD, 100) == 100 && fcntl(copy, F_DUPFD_CLOEXEC, 100) == 101);
    HOLDS(fcntl(100, F_GETFD) == 0 && fcntl(101, F_GETFD) == FD_CLOEXEC);
    HOLDS(writes(ends[1], "ab") && reads(101, "ab"));
    /* over a descriptor of the host, of a pipe, and of the same pipe */
    HOLDS(dup2(copy, file) == file && dup2(copy, copy) == copy);
    OURS(file);
    new_pipe(more, 0);
    HOLDS(dup2(ends[1], more[1]) == more[1] && reads(more[0], ""));
    HOLDS(dup3(more[0], 100, O_CLOEXEC) == 100 && fcntl(100, F_GETFD) == FD_CLOEXEC && reads(100, ""));
    FAILS(dup3(copy, copy, 0), EINVAL);
    int null = open("/dev/null", O_RDONLY);
    HOLDS(dup2(null, more[0]) == more[0] && reads(more[0], "") && lseek(more[0], 0, SEEK_CUR) == 0);
    /* the last read end is gone, by a descriptor of the host over it */
    new_pipe(more, 0);
    HOLDS(dup2(null, more[0]) == more[0]);
    FAILS(write(more[1], "a", 1), EPIPE);
    HOLDS(close_range(3, 101, 0) == 0);
    FAILS(close(copy), EBADF);
    FAILS(write(more[1], "a", 1), EBADF);
    FAILS(dup2(copy, 5), EBADF);
}

static void bytes(void)
{
    int ends[2], held = 0;
    char one[2], other[3];
    struct iovec from[2] = { { "he", 2 }, { "llo", 3 } }, into[2] = { { one, 2 }, { other, 3 } };
    struct stat facts;
    new_pipe(ends, O_NONBLOCK);
    HOLDS(writev(ends[1], from, 2) == 5 && ioctl(ends[0], FIONREAD, &held) == 0 && held == 5);
    HOLDS(readv(ends[0], into, 2) == 5 && memcmp(one, "he", 2) == 0 && memcmp(other, "llo", 3) == 0);
    FAILS(read(ends[0], one, 1), EAGAIN);
    FAILS(lseek(ends[0], 0, SEEK_SET), ESPIPE);
    HOLDS(fstat(ends[0], &facts) == 0 && S_ISFIFO(facts.st_mode) && (facts.st_mode & 0777) == 0600 && facts.st_uid == geteuid());
    HOLDS(!isatty(ends[0]) && errno == ENOTTY);
    FAILS(read(ends[1], one, 1), EBADF);
    HOLDS(close(ends[1]) == 0 && read(ends[0], one, 1) == 0 && close(ends[0]) == 0);
    new_pipe(ends, O_DIRECT);
    HOLDS(writes(ends[1], "a") && writes(ends[1], "bc") && reads(ends[0], "a") && reads(ends[0], "bc"));
    close_pipe(ends);
}

static void flags(void)
{
    int ends[2], on = 1;
    new_pipe(ends, O_CLOEXEC);
    HOLDS(fcntl(ends[0], F_GETFD) == FD_CLOEXEC && fcntl(ends[0], F_SETFD, 0) == 0 && fcntl(ends[0], F_GETFD) == 0);
    HOLDS(fcntl(ends[0], F_GETFL) == O_RDONLY && fcntl(ends[1], F_GETFL) == O_WRONLY);
    int copy = dup(ends[0]);
    HOLDS(fcntl(ends[0], F_SETFL, O_NONBLOCK) == 0 && fcntl(copy, F_GETFL) == O_NONBLOCK && fcntl(ends[1], F_GETFL) == O_WRONLY);
    HOLDS(ioctl(ends[1], FIONBIO, &on) == 0 && fcntl(ends[1], F_GETFL) == (O_WRONLY | O_NONBLOCK));
    HOLDS(ioctl(ends[0], FIOCLEX) == 0 && fcntl(ends[0], F_GETFD) == FD_CLOEXEC && fcntl(copy, F_GETFD) == 0);
    HOLDS(fcntl(ends[0], F_GETPIPE_SZ) == 65536 && fcntl(ends[1], F_SETPIPE_SZ, 5000) == 8192);
    HOLDS(close(copy) == 0);
    OURS(ends[0]);
    close_pipe(ends);
}

static void pipes_to_pipes(void)
{
    int one[2], two[2];
    new_pipe(one, 0);
    new_pipe(two, 0);
    HOLDS(writes(one[1], "abc") && tee(one[0], two[1], 2, 0) == 2 && reads(two[0], "ab"));
    HOLDS(splice(one[0], NULL, two[1], NULL, 9, 0) == 3 && reads(two[0], "abc"));
    OURS(one[0]);
    /* the layer has no files of the host: this moves the pipe */
    int zero = open("/dev/zero", O_RDONLY), null = open("/dev/null", O_WRONLY);
    HOLDS(writes(one[1], "abc") && splice(one[0], NULL, null, NULL, 2, 0) == 2 && reads(one[0], "c"));
    MOVED(one[0]);
    MOVED(one[1]);
    HOLDS(writes(one[1], "x") && splice(one[0], NULL, two[1], NULL, 9, 0) == 1 && reads(two[0], "x"));
    HOLDS(close(zero) == 0 && close(null) == 0);
    close_pipe(one);
    close_pipe(two);
}

static void polls(void)
{
    int ends[2], sockets[2];
    new_pipe(ends, 0);
    need(socketpair(AF_UNIX, SOCK_STREAM, 0, sockets) == 0, "socketpair");
    struct pollfd entries[4] = { { .fd = ends[0], .events = POLLIN | POLLRDNORM }, { .fd = sockets[0], .events = POLLIN },
        { .fd = ends[1], .events = POLLOUT }, { .fd = 900, .events = POLLIN } };
    double begun = seconds();
    HOLDS(poll(entries, 2, 50) == 0 && seconds() - begun > 0.045);
    HOLDS(poll(entries, 4, -1) == 2 && entries[2].revents == POLLOUT && entries[3].revents == POLLNVAL && entries[0].revents == 0);
    HOLDS(writes(sockets[1], "s") && poll(entries, 2, -1) == 1 && entries[1].revents == POLLIN);
    HOLDS(writes(ends[1], "p") && poll(entries, 2, -1) == 2 && entries[0].revents == (POLLIN | POLLRDNORM));
    fd_set in, out;
    FD_ZERO(&in);
    FD_ZERO(&out);
    FD_SET(ends[0], &in);
    FD_SET(sockets[0], &in);
    FD_SET(ends[1], &out);
    struct timeval time = { 5, 0 };
    HOLDS(select(sockets[1] + 1, &in, &out, NULL, &time) == 3 && time.tv_sec >= 4);
    HOLDS(reads(ends[0], "p") && reads(sockets[0], "s"));
    struct timespec short_time = { 0, 30000000 };
    HOLDS(pselect(sockets[1] + 1, &in, NULL, NULL, &short_time, NULL) == 0 && !FD_ISSET(ends[0], &in) && !FD_ISSET(sockets[0], &in));
    int closed = dup(ends[0]);
    FD_SET(ends[0], &in);
    FD_SET(closed, &in);
    HOLDS(close(closed) == 0);
    FAILS(select(closed + 1, &in, NULL, NULL, &time), EBADF);
    HOLDS(close(ends[1]) == 0 && poll(entries, 1, 0) == 1 && entries[0].revents == POLLHUP);
    HOLDS(close(ends[0]) == 0);
    new_pipe(ends, 0);
    HOLDS(close(ends[0]) == 0 && (entries[0] = (struct pollfd){ .fd = ends[1], .events = POLLOUT }, poll(entries, 1, 0)) == 1);
    HOLDS(entries[0].revents == (POLLOUT | POLLERR) && close(ends[1]) == 0);
    HOLDS(close(sockets[0]) == 0 && close(sockets[1]) == 0);
}

/* A size that is no ssize_t is refused: the host says EFAULT, as no buffer is so large. tee(2) asks for INT_MAX bytes in its own example. */
static void sizes(void)
{
    int one[2], two[2];
    char bytes[8] = "", into[16];
    volatile size_t none = SIZE_MAX;
    const int error = is_over_layer ? EINVAL : EFAULT;
    new_pipe(one, 0);
    new_pipe(two, O_NONBLOCK);
    FAILS(write(one[1], bytes, none), error);
    HOLDS(writes(one[1], "hello"));
    FAILS(read(one[0], bytes, none), error);
    HOLDS(strcmp(bytes, "") == 0 && tee(one[0], two[1], INT_MAX, 0) == 5 && tee(one[0], two[1], none, 0) == 5);
    HOLDS(splice(one[0], NULL, two[1], NULL, none, 0) == 5 && read(two[0], into, sizeof into) == 15);
    OURS(one[0]);
    /* the host cuts a size that a buffer may have (read(2), NOTES) */
    size_t room = (size_t)INT_MAX + 4096;
    char *large = mmap(NULL, room, PROT_READ | PROT_WRITE, MAP_PRIVATE | MAP_ANONYMOUS | MAP_NORESERVE, -1, 0);
    need(large != MAP_FAILED, "room");
    HOLDS(writes(one[1], "hello") && read(one[0], large, room) == 5 && memcmp(large, "hello", 5) == 0);
    HOLDS(write(two[1], large, room) == 65536 && munmap(large, room) == 0);
    close_pipe(one);
    close_pipe(two);
}

/* What a pipe is after a call that moved it: the same bytes, flags and duplicates. */
static void moved(void)
{
    int ends[2], fork_ends[2], status;
    new_pipe(ends, O_NONBLOCK);
    int copy = fcntl(ends[1], F_DUPFD_CLOEXEC, 60);
    int epoll = epoll_create1(EPOLL_CLOEXEC);
    struct epoll_event event = { .events = EPOLLIN };
    HOLDS(writes(ends[1], "abc") && fcntl(ends[0], F_SETPIPE_SZ, 16384) == 16384);
    HOLDS(epoll_ctl(epoll, EPOLL_CTL_ADD, ends[0], &event) == 0 && epoll_wait(epoll, &event, 1, -1) == 1);
    MOVED(copy);
    HOLDS(reads(ends[0], "abc") && fcntl(ends[0], F_GETFL) == O_NONBLOCK && fcntl(ends[0], F_GETPIPE_SZ) == 16384);
    HOLDS(fcntl(copy, F_GETFD) == FD_CLOEXEC && fcntl(ends[1], F_GETFD) == 0 && writes(copy, "d") && reads(ends[0], "d"));
    HOLDS(fcntl(copy, F_SETFL, 0) == 0 && fcntl(ends[1], F_GETFL) == O_WRONLY && fcntl(ends[0], F_GETFL) == O_NONBLOCK);
    HOLDS(close(copy) == 0 && close(epoll) == 0);
    close_pipe(ends);
    /* streams of the C library */
    new_pipe(ends, 0);
    FILE *stream = fdopen(ends[1], "w");
    HOLDS(dprintf(ends[1], "%d", 12) == 2 && fputs("34", stream) >= 0 && fclose(stream) == 0 && reads(ends[0], "1234"));
    HOLDS(close(ends[0]) == 0);
    /* a fork moves all: packets stay packets, and the end of a pipe without writers its end */
    new_pipe(ends, O_DIRECT | O_CLOEXEC);
    new_pipe(fork_ends, 0);
    HOLDS(writes(ends[1], "a") && writes(ends[1], "bc") && writes(fork_ends[1], "end") && close(fork_ends[1]) == 0);
    pid_t child = fork();
    if (child == 0)
        _exit(reads(ends[0], "a") && writes(ends[1], "child") && reads(fork_ends[0], "end") && reads(fork_ends[0], "") ? 7 : 1);
    HOLDS(waitpid(child, &status, 0) == child && WIFEXITED(status) && WEXITSTATUS(status) == 7);
    MOVED(ends[0]);
    HOLDS(reads(ends[0], "bc") && reads(ends[0], "child") && reads(fork_ends[0], "") && close(fork_ends[0]) == 0);
    close_pipe(ends);
}

/* Other programs get pipes of the host: by posix_spawn, system and vfork. */
static void spawned(void)
{
    int ends[2], status;
    char *words[] = { "sh", "-c", "echo spawned; read line; echo $line", NULL };
    posix_spawn_file_actions_t actions;
    pid_t child;
    new_pipe(ends, 0);
    HOLDS(writes(ends[1], "held\n") && posix_spawn_file_actions_init(&actions) == 0);
    HOLDS(posix_spawn_file_actions_adddup2(&actions, ends[1], 1) == 0 && posix_spawn_file_actions_adddup2(&actions, ends[0], 0) == 0);
    HOLDS(posix_spawnp(&child, "sh", &actions, NULL, words, environ) == 0 && posix_spawn_file_actions_destroy(&actions) == 0);
    HOLDS(waitpid(child, &status, 0) == child && WEXITSTATUS(status) == 0);
    HOLDS(reads(ends[0], "spawned\nheld\n"));
    close_pipe(ends);
    new_pipe(ends, 0);
    char command[40];
    snprintf(command, sizeof command, "echo told >&%d", ends[1]);
    HOLDS(system(command) == 0 && reads(ends[0], "told\n"));
    close_pipe(ends);
    new_pipe(ends, 0);
    child = vfork();
    if (child == 0) {
        execlp("sh", "sh", "-c", command, (char *)NULL);
        _exit(1);
    }
    HOLDS(waitpid(child, &status, 0) == child && status == 0 && reads(ends[0], "told\n"));
    close_pipe(ends);
}

/* And so by an exec. */
static void executed(void)
{
    int ends[2], status;
    new_pipe(ends, 0);
    pid_t child = fork();
    if (child == 0) {
        dup2(ends[1], 1);
        execlp("echo", "echo", "done", (char *)NULL);
        _exit(1);
    }
    HOLDS(close(ends[1]) == 0 && reads(ends[0], "done\n") && reads(ends[0], "") && waitpid(child, &status, 0) == child && status == 0);
    HOLDS(close(ends[0]) == 0);
    /* a pipe that is made behind the fork is moved by the exec */
    new_pipe(ends, 0);
    child = fork();
    if (child == 0) {
        char *environment[] = { "TEXT=behind", NULL };
        int inner[2];
        if (pipe(inner) < 0 || !writes(inner[1], "held\n") || dup2(inner[0], 0) != 0 || dup2(ends[1], 1) != 1)
            _exit(1);
        execle("/bin/sh", "sh", "-c", "read line; echo $line $TEXT", (char *)NULL, environment);
        _exit(1);
    }
    HOLDS(waitpid(child, &status, 0) == child && status == 0 && reads(ends[0], "held behind\n"));
    close_pipe(ends);
}

/* The layer has 256 descriptors, and further pipes are the host's. */
static void many(void)
{
    enum { MANY = 200 };
    static int ends[MANY][2];
    char byte;
    for (int i = 0; i < MANY; i++)
        need(pipe(ends[i]) == 0, "pipe");
    OURS(ends[0][0]);
    MOVED(ends[MANY - 1][1]);
    for (int i = 0; i < MANY; i++)
        HOLDS(write(ends[i][1], &(char){ (char)i }, 1) == 1);
    /* a duplicate for which the layer has no room moves its pipe */
    int copy = dup(ends[0][0]);
    for (int i = 0; i < MANY; i++)
        HOLDS(read(i == 0 ? copy : ends[i][0], &byte, 1) == 1 && byte == (char)i);
    HOLDS(close(copy) == 0);
    for (int i = 0; i < MANY; i++)
        close_pipe(ends[i]);
}

int main(int count, char **words)
{
    is_over_layer = count > 1 && strcmp(words[1], "layer") == 0;
    signal(SIGPIPE, SIG_IGN);
    numbers();
    bytes();
    sizes();
    flags();
    pipes_to_pipes();
    polls();
    moved();
    spawned();
    executed();
    many();
    return end();
}

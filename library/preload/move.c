/* Moves of pipes to the host: before a fork and its kin, and before a call that the layer doesn't have. Each number then names a pipe of the host
 * that holds the same bytes. */
#include "preload.h"

#include <errno.h>
#include <stdarg.h>
#include <string.h>

/* A pipe of the host that takes the place of one of the layer. */
struct new_pipe {
    /* Its read end and its write end. Those of a FIFO are one descriptor. */
    int ends[2];
    bool is_fifo;
};

/* A fifo is opened once more by what the kernel tells of its placeholder, since it may have no name any more. */
static int open_fifo(int number, int flags)
{
    char path[40];
    snprintf(path, sizeof path, "/proc/self/fd/%d", number);
    return host()->openat(AT_FDCWD, path, flags | O_NONBLOCK | O_CLOEXEC);
}

static struct new_pipe made_for(int number)
{
    struct new_pipe new = { { -1, -1 }, table[number].fifo != NO_FIFO };
    int capacity = bc_fcntl(&layer, layers(number), F_GETPIPE_SZ);
    if (new.is_fifo)
        new.ends[0] = new.ends[1] = open_fifo(number, O_RDWR);
    else if (host()->pipe2(new.ends, O_CLOEXEC | O_NONBLOCK | table[number].packets) < 0)
        new.ends[0] = -1;
    if (new.ends[0] < 0)
        die("no pipe of the host for one of the layer");
    if (capacity != host()->fcntl(new.ends[1], F_GETPIPE_SZ))
        host()->fcntl(new.ends[1], F_SETPIPE_SZ, capacity);
    return new;
}

/* Moves the bytes: of a packet pipe each packet is one read, and one write. */
static void pour(int of_layer, int into)
{
    static char bytes[4096];
    const struct timespec passed = { 0, 0 };
    const bc_process hurried = bc_until(&layer, &passed);
    ssize_t count;
    while ((count = bc_read(&hurried, of_layer, bytes, sizeof bytes)) > 0)
        if (host()->write(into, bytes, (size_t)count) != count)
            die("a pipe of the host hasn't enough room");
}

/* A descriptor of the host for a number, with the mode and the flags of the layer's. */
static int end_of(const struct new_pipe *new, int number)
{
    int flags = bc_fcntl(&layer, layers(number), F_GETFL);
    int end = new->is_fifo ? open_fifo(number, flags & O_ACCMODE) : new->ends[(flags & O_ACCMODE) != O_RDONLY];
    if (end < 0 || host()->fcntl(end, F_SETFL, flags & ~O_ACCMODE) < 0)
        die("an end of a pipe of the host");
    return end;
}

/* Gives a number, and all its duplicates, to the host. */
static void give_number(const struct new_pipe *new, int number)
{
    unsigned description = table[number].description;
    int end = end_of(new, number);
    for (int other = number; other < MOST_NUMBERS; other++) {
        if (!is_ours(other) || table[other].description != description)
            continue;
        int flags = host()->fcntl(other, F_GETFD);
        if (flags < 0 || host()->dup3(end, other, (flags & FD_CLOEXEC) != 0 ? O_CLOEXEC : 0) < 0)
            die("a number for a pipe of the host");
        bc_close(&layer, layers(other));
        atomic_store_explicit(&table[other].taken, 0, memory_order_release);
    }
    if (new->is_fifo)
        host()->close(end);
}

/* Moves the pipe of a number, and all numbers that name it. */
static void move_that_of(int number)
{
    uint64_t pipe = table[number].pipe;
    struct new_pipe new = made_for(number);
    if (new.is_fifo)
        give_up_fifo(table[number].fifo);
    for (int reader = number; reader < MOST_NUMBERS; reader++)
        if (is_ours(reader) && table[reader].pipe == pipe && (bc_fcntl(&layer, layers(reader), F_GETFL) & O_ACCMODE) != O_WRONLY)
            pour(layers(reader), new.ends[1]);
    for (int other = number; other < MOST_NUMBERS; other++)
        if (is_ours(other) && table[other].pipe == pipe)
            give_number(&new, other);
    host()->close(new.ends[0]);
    if (!new.is_fifo)
        host()->close(new.ends[1]);
    counts[MOVES]++;
}

void move_pipe(uint64_t pipe)
{
    int error = errno;
    /* each thread whose call ended so makes it again, on the host if its pipe was moved */
    bc_interrupt(&layer);
    for (int number = LEAST_NUMBER; number < MOST_NUMBERS; number++)
        if (is_ours(number) && (pipe == 0 || table[number].pipe == pipe))
            move_that_of(number);
    errno = error;
}

void move_all(void)
{
    if (layer.shared == NULL)
        return;
    move_pipe(0);
    give_up_fifos();
}

void move_first(int fd)
{
    struct visit visit;
    if (!enter_for(fd, &visit))
        return;
    move_pipe(table[fd].pipe);
    leave(&visit);
}

/* ---- Calls that the layer doesn't have ---- */

/* Defines a call that moves the pipe of its descriptor, and is then the host's. */
#define MOVES_FIRST(type, name, parameters, arguments, fd) \
    type name parameters \
    { \
        move_first(fd); \
        return host()->name arguments; \
    }

MOVES_FIRST(FILE *, fdopen, (int fd, const char *mode), (fd, mode), fd)
MOVES_FIRST(int, vdprintf, (int fd, const char *format, va_list arguments), (fd, format, arguments), fd)
MOVES_FIRST(ssize_t, vmsplice, (int fd, const struct iovec *from, size_t count, unsigned flags), (fd, from, count, flags), fd)
MOVES_FIRST(int, epoll_ctl, (int epoll, int command, int fd, struct epoll_event *event), (epoll, command, fd, event), fd)
MOVES_FIRST(ssize_t, pread, (int fd, void *into, size_t size, off_t offset), (fd, into, size, offset), fd)
MOVES_FIRST(ssize_t, pwrite, (int fd, const void *bytes, size_t size, off_t offset), (fd, bytes, size, offset), fd)
MOVES_FIRST(int, ftruncate, (int fd, off_t size), (fd, size), fd)
MOVES_FIRST(int, fsync, (int fd), (fd), fd)
MOVES_FIRST(int, fdatasync, (int fd), (fd), fd)
MOVES_FIRST(int, fchmod, (int fd, mode_t mode), (fd, mode), fd)
MOVES_FIRST(int, fchown, (int fd, uid_t owner, gid_t group), (fd, owner, group), fd)
MOVES_FIRST(int, flock, (int fd, int command), (fd, command), fd)

ssize_t sendfile(int to, int from, off_t *offset, size_t size)
{
    move_first(to);
    move_first(from);
    return host()->sendfile(to, from, offset, size);
}

ssize_t copy_file_range(int from, off64_t *from_offset, int to, off64_t *to_offset, size_t size, unsigned flags)
{
    move_first(from);
    move_first(to);
    return host()->copy_file_range(from, from_offset, to, to_offset, size, flags);
}

int dprintf(int fd, const char *format, ...)
{
    va_list arguments;
    va_start(arguments, format);
    int size = vdprintf(fd, format, arguments);
    va_end(arguments);
    return size;
}

/* ---- Calls that give descriptors to another process ---- */

static void move_all_first(void)
{
    struct visit visit;
    enter(&visit);
    move_all();
    leave(&visit);
}

#define MOVES_ALL_FIRST(type, name, parameters, arguments) \
    type name parameters \
    { \
        move_all_first(); \
        return host()->name arguments; \
    }

MOVES_ALL_FIRST(int, execv, (const char *path, char *const words[]), (path, words))
MOVES_ALL_FIRST(int, execve, (const char *path, char *const words[], char *const environment[]), (path, words, environment))
MOVES_ALL_FIRST(int, execvp, (const char *file, char *const words[]), (file, words))
MOVES_ALL_FIRST(int, execvpe, (const char *file, char *const words[], char *const environment[]), (file, words, environment))
MOVES_ALL_FIRST(int, fexecve, (int fd, char *const words[], char *const environment[]), (fd, words, environment))
MOVES_ALL_FIRST(int, system, (const char *command), (command))
MOVES_ALL_FIRST(FILE *, popen, (const char *command, const char *mode), (command, mode))
MOVES_ALL_FIRST(int, posix_spawn,
    (pid_t *pid, const char *path, const posix_spawn_file_actions_t *actions, const posix_spawnattr_t *attributes, char *const words[],
        char *const environment[]),
    (pid, path, actions, attributes, words, environment))
MOVES_ALL_FIRST(int, posix_spawnp,
    (pid_t *pid, const char *file, const posix_spawn_file_actions_t *actions, const posix_spawnattr_t *attributes, char *const words[],
        char *const environment[]),
    (pid, file, actions, attributes, words, environment))

/* execl and its kin, whose words are arguments: the last one is null, and behind it there may be the environment. */
enum { MOST_WORDS = 1024 };

static bool are_words(char *words[MOST_WORDS], const char *first, va_list *arguments)
{
    int count = 0;
    for (const char *word = first; word != NULL && count < MOST_WORDS - 1; word = va_arg(*arguments, const char *))
        words[count++] = (char *)(uintptr_t)word;
    words[count] = NULL;
    if (count < MOST_WORDS - 1)
        return true;
    errno = E2BIG;
    return false;
}

#define MOVES_ALL_WITH_WORDS(name, does) \
    int name(const char *file, const char *first, ...) \
    { \
        char *words[MOST_WORDS]; \
        va_list arguments; \
        va_start(arguments, first); \
        int status = are_words(words, first, &arguments) ? does : -1; \
        va_end(arguments); \
        return status; \
    }

MOVES_ALL_WITH_WORDS(execl, execv(file, words))
MOVES_ALL_WITH_WORDS(execlp, execvp(file, words))
MOVES_ALL_WITH_WORDS(execle, execve(file, words, va_arg(arguments, char *const *)))

/* A message may carry descriptors. */
ssize_t sendmsg(int socket, const struct msghdr *message, int flags)
{
    if (message->msg_controllen > 0)
        move_all_first();
    return host()->sendmsg(socket, message, flags);
}

/* The handlers of pthread_atfork move the pipes of a fork. A child that shares memory with its parent would run none of them. */
pid_t vfork(void)
{
    return fork();
}

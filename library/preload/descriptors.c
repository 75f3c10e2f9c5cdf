/* Pipes and their numbers: pipe, dup and its kin, close. Each number of the layer is one at which the host has a placeholder. */
#include "preload.h"

#include <errno.h>
#include <limits.h>
#include <stdarg.h>

struct entry table[MOST_NUMBERS];

/* A call of the host that isn't one of this object's finds the placeholder: reads, writes and epoll_ctl answer EBADF there (open(2), O_PATH). */
static int placeholder(int flags)
{
    return host()->openat(AT_FDCWD, "/dev/null", O_PATH | (flags & O_CLOEXEC));
}

static bool may_be_ours(int fd)
{
    return fd >= LEAST_NUMBER && fd < MOST_NUMBERS;
}

static void enter_entry(int fd, int of_layer, unsigned description, int packets, int fifo)
{
    struct stat facts;
    if (bc_fstat(&layer, of_layer, &facts) < 0)
        die("a descriptor of the layer");
    table[fd].description = description;
    table[fd].pipe = facts.st_ino + 1;
    table[fd].packets = packets;
    table[fd].fifo = fifo;
    atomic_store_explicit(&table[fd].taken, of_layer + 1, memory_order_release);
}

void enter_new(int fd, int of_layer, int packets, int fifo)
{
    static unsigned descriptions;
    enter_entry(fd, of_layer, ++descriptions, packets, fifo);
}

void enter_duplicate(int fd, int of_layer, int from)
{
    enter_entry(fd, of_layer, table[from].description, table[from].packets, table[from].fifo);
}

/* ---- Pipes ---- */

/* Under the lock: makes a pipe of the layer. Returns false if the layer has no room, or the numbers are none of the layer's. */
static bool made_pipe(int ends[2], int flags)
{
    int numbers[2] = { placeholder(flags), placeholder(flags) }, made[2];
    bool is_made = may_be_ours(numbers[0]) && may_be_ours(numbers[1]) && bc_pipe2(&layer, made, flags & ~O_CLOEXEC) == 0;
    for (int i = 0; i < 2; i++) {
        if (is_made) {
            enter_new(numbers[i], made[i], flags & O_DIRECT, NO_FIFO);
            ends[i] = numbers[i];
        } else if (numbers[i] >= 0) {
            host()->close(numbers[i]);
        }
    }
    counts[is_made ? PIPES : HOST_PIPES]++;
    return is_made;
}

int pipe2(int ends[2], int flags)
{
    struct visit visit;
    bool is_made = false;
    if (layer.shared != NULL && (flags & ~(O_CLOEXEC | O_NONBLOCK | O_DIRECT)) == 0) {
        enter(&visit);
        is_made = made_pipe(ends, flags);
        leave(&visit);
    }
    return is_made ? 0 : host()->pipe2(ends, flags);
}

int pipe(int ends[2])
{
    return pipe2(ends, 0);
}

/* ---- Close ---- */

/* Under the lock. */
static void close_entry(int fd)
{
    if (bc_close(&layer, layers(fd)) < 0)
        die("close");
    atomic_store_explicit(&table[fd].taken, 0, memory_order_release);
}

int close(int fd)
{
    struct visit visit;
    if (!enter_for(fd, &visit))
        return host()->close(fd);
    close_entry(fd);
    int status = host()->close(fd);
    leave(&visit);
    return status;
}

int close_range(unsigned first, unsigned last, int flags)
{
    for (unsigned fd = first; fd <= last && fd < MOST_NUMBERS && (flags & CLOSE_RANGE_CLOEXEC) == 0; fd++)
        if (is_ours((int)fd))
            close((int)fd);
    return host()->close_range(first, last, flags);
}

void closefrom(int first)
{
    close_range(first < 0 ? 0 : (unsigned)first, UINT_MAX, 0);
}

/* ---- Duplicates ---- */

/* Under the lock: a number of the host's was made a duplicate of the placeholder of from. The number is then a duplicate in the layer, or the
 * pipe is moved to the host, and the number with it. */
static void duplicate(int from, int number)
{
    int made = may_be_ours(number) ? bc_dup(&layer, layers(from)) : -1;
    counts[DUPS]++;
    if (made >= 0) {
        enter_duplicate(number, made, from);
        return;
    }
    int fd_flags = host()->fcntl(number, F_GETFD);
    move_pipe(table[from].pipe);
    if (host()->dup3(from, number, (fd_flags & FD_CLOEXEC) != 0 ? O_CLOEXEC : 0) < 0)
        die("a duplicate");
}

/* Under the lock: with fd of the layer, F_DUPFD or F_DUPFD_CLOEXEC. */
static int duplicate_from(int fd, int command, int least)
{
    int number = host()->fcntl(fd, command, least);
    if (number >= 0)
        duplicate(fd, number);
    return number;
}

int dup(int fd)
{
    struct visit visit;
    if (!enter_for(fd, &visit))
        return host()->dup(fd);
    int number = duplicate_from(fd, F_DUPFD, 0);
    leave(&visit);
    return number;
}

/* Under the lock: what dup3 does if one of both is of the layer, and they differ. */
static int duplicate_to(int fd, int target, int flags)
{
    int number = host()->dup3(fd, target, flags);
    if (number < 0)
        return -1;
    /* both of the layer: this closes what target named, in the same step */
    if (is_ours(fd) && is_ours(target)) {
        int made = layers(target);
        counts[DUPS]++;
        if (bc_dup2(&layer, layers(fd), made) < 0)
            die("dup2");
        enter_duplicate(target, made, fd);
        return number;
    }
    if (is_ours(target))
        close_entry(target);
    else
        duplicate(fd, number);
    return number;
}

int dup3(int fd, int target, int flags)
{
    struct visit visit;
    if (fd == target || (!is_ours(fd) && !is_ours(target)))
        return host()->dup3(fd, target, flags);
    enter(&visit);
    int number = is_ours(fd) || is_ours(target) ? duplicate_to(fd, target, flags) : host()->dup3(fd, target, flags);
    leave(&visit);
    return number;
}

int dup2(int fd, int target)
{
    return fd == target ? host()->dup2(fd, target) : dup3(fd, target, 0);
}

/* ---- Flags ---- */

/* Under the lock: what the layer has of fcntl. Returns false if the host has to do it, with the pipe. */
static bool commanded(int fd, int command, long argument, int *answer)
{
    switch (command) {
    case F_DUPFD:
    case F_DUPFD_CLOEXEC:
        *answer = duplicate_from(fd, command, (int)argument);
        return true;
    case F_GETFD:
    case F_SETFD:
        *answer = host()->fcntl(fd, command, argument);
        return true;
    case F_SETFL:
        /* the layer doesn't make a pipe one of packets, and sends no SIGIO (docs/LINUX.md) */
        if (((argument ^ bc_fcntl(&layer, layers(fd), F_GETFL)) & (O_ASYNC | O_DIRECT)) != 0)
            return false;
        /* fallthrough */
    case F_GETFL:
    case F_GETPIPE_SZ:
    case F_SETPIPE_SZ:
        counts[FLAGS]++;
        *answer = bc_fcntl(&layer, layers(fd), command, (int)argument);
        return true;
    default:
        return false;
    }
}

int fcntl(int fd, int command, ...)
{
    va_list arguments;
    struct visit visit;
    int answer;
    va_start(arguments, command);
    /* a pointer or an int, as the C library itself takes it */
    long argument = va_arg(arguments, long);
    va_end(arguments);
    if (enter_for(fd, &visit)) {
        bool is_done = commanded(fd, command, argument, &answer);
        leave(&visit);
        if (is_done)
            return answer;
        move_first(fd);
    }
    return host()->fcntl(fd, command, argument);
}

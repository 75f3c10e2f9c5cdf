/* Calls that may wait. Without --threads each is tried without waiting, and again when the script resumes it; what it needs is kept open by
 * duplicates meanwhile. An open of a FIFO can't be tried so: a process of its own makes it. With --threads each blocks in a thread. */
#include "beside.h"

#include <pthread.h>
#include <signal.h>
#include <sys/resource.h>
#include <sys/stat.h>
#include <sys/syscall.h>
#include <sys/wait.h>

static _Thread_local volatile sig_atomic_t sigpipe_came;

static void note_sigpipe(int number)
{
    (void)number;
    sigpipe_came = 1;
}

static void wake(int number)
{
    (void)number;
}

/* SIGPIPE is noted, SIGUSR1 ends a call that blocks, and a file that gets too long is told by EFBIG. */
void catch_signals(void)
{
    struct sigaction noted = { .sa_handler = note_sigpipe, .sa_flags = SA_RESTART }, woken = { .sa_handler = wake };
    sigaction(SIGPIPE, &noted, NULL);
    sigaction(SIGUSR1, &woken, NULL);
    signal(SIGXFSZ, SIG_IGN);
    signal(SIGCHLD, SIG_IGN);
}

int64_t make_call(const struct request *request, uint8_t *bytes, struct pollfd *entries)
{
    off64_t from = request->offset[0], to = request->offset[1];
    off64_t *at = request->has_offset[0] ? &from : NULL, *into = request->has_offset[1] ? &to : NULL;
    switch (request->call) {
    case READ:
        return read(request->fd[0], bytes, request->length < MOST_BYTES ? request->length : MOST_BYTES);
    case WRITE:
        return write(request->fd[0], bytes + request->taken, request->byte_count - request->taken);
    case SPLICE:
        return splice(request->fd[0], at, request->fd[1], into, request->length, (unsigned)request->flags);
    case TEE:
        return tee(request->fd[0], request->fd[1], request->length, (unsigned)request->flags);
    case POLL:
        return poll(entries, request->entry_count, request->waits ? -1 : 0);
    case OPEN:
        return open(request->name, request->mode | request->flags, 0600);
    default:
        errno = ENOSYS;
        return -1;
    }
}

/* What a call came to. */
static struct answer answered(int64_t value, int error)
{
    bool sigpipe = sigpipe_came != 0;
    sigpipe_came = 0;
    if (value < 0)
        return (struct answer){ .outcome = FAULT, .error = error, .sigpipe = sigpipe };
    return (struct answer){ .outcome = DONE, .value = value, .sigpipe = sigpipe };
}

static bool is_pipe(int fd)
{
    struct stat found;
    return fstat(fd, &found) == 0 && S_ISFIFO(found.st_mode);
}

/* Whether this descriptor is of a pipe, and of a description that waits. */
static bool waits_at(int fd)
{
    int flags = fcntl(fd, F_GETFL);
    return flags >= 0 && is_pipe(fd) && (flags & O_NONBLOCK) == 0;
}

/* Raises the limit on descriptors beyond those of the script, and lowers it again. */
static void limit_descriptors(bool to_script)
{
    struct rlimit limit;
    getrlimit(RLIMIT_NOFILE, &limit);
    limit.rlim_cur = to_script ? OPEN_MAX_HERE : limit.rlim_max;
    setrlimit(RLIMIT_NOFILE, &limit);
}

static int keep(int fd)
{
    return fd < 0 ? fd : fcntl(fd, F_DUPFD, FIRST_KEPT);
}

/* The call goes on to wait, with duplicates of its descriptors. */
static struct answer kept(const struct request *request, size_t taken)
{
    struct answer answer = { .outcome = WAITS, .taken = taken };
    int fds = request->call == POLL ? 0 : request->call == READ || request->call == WRITE ? 1 : 2;
    limit_descriptors(false);
    for (int i = 0; i < 2; i++)
        answer.kept[i] = i >= fds ? -1 : request->again ? request->fd[i] : keep(request->fd[i]);
    memcpy(answer.entries, request->entries, sizeof answer.entries);
    for (size_t i = 0; i < request->entry_count && !request->again; i++)
        answer.entries[i].fd = keep(request->entries[i].fd);
    limit_descriptors(true);
    return answer;
}

void let_go(const struct request *request)
{
    for (int i = 0; i < 2; i++)
        if (request->fd[i] >= FIRST_KEPT)
            close(request->fd[i]);
    for (size_t i = 0; i < request->entry_count; i++)
        if (request->entries[i].fd >= FIRST_KEPT)
            close(request->entries[i].fd);
}

/* A read or a write without waiting: the flag of its description is set for this one call. No other process makes one meanwhile. */
static struct answer try_transfer(const struct request *request)
{
    int fd = request->fd[0], flags = fcntl(fd, F_GETFL);
    bool waits = request->again || waits_at(fd);
    if (waits)
        fcntl(fd, F_SETFL, flags | O_NONBLOCK);
    int64_t value = make_call(request, shared->bytes, NULL);
    int error = errno;
    if (waits)
        fcntl(fd, F_SETFL, flags);
    size_t taken = request->taken;
    if (value > 0 && request->call == WRITE)
        taken += (size_t)value;
    if (waits && ((value < 0 && error == EAGAIN) || (value >= 0 && request->call == WRITE && taken < request->byte_count)))
        return kept(request, taken);
    if (request->call == WRITE && taken > 0) {
        struct answer answer = answered((int64_t)taken, 0);
        return answer;
    }
    return answered(value, error);
}

/* splice(2), tee(2): NONBLOCK of the call or of a pipe's description. A length of 0 and a fault don't wait. */
static struct answer try_move(const struct request *request)
{
    bool waits = request->again || (request->flags & SPLICE_F_NONBLOCK) == 0;
    for (int i = 0; i < 2 && !request->again; i++)
        waits = waits && (!is_pipe(request->fd[i]) || waits_at(request->fd[i]));
    struct request now = *request;
    now.flags |= waits ? (int)SPLICE_F_NONBLOCK : 0;
    int64_t value = make_call(&now, NULL, NULL);
    int error = errno;
    return waits && value < 0 && error == EAGAIN ? kept(request, 0) : answered(value, error);
}

static struct answer try_poll(const struct request *request)
{
    struct request now = *request;
    now.waits = false;
    int64_t value = make_call(&now, NULL, now.entries);
    if (value == 0 && request->waits)
        return kept(request, 0);
    struct answer answer = answered(value, errno);
    memcpy(answer.entries, now.entries, sizeof answer.entries);
    return answer;
}

/* Whether a descriptor of the script is free. */
static bool has_room(void)
{
    for (int fd = 0; fd < OPEN_MAX_HERE; fd++)
        if (fcntl(fd, F_GETFD) < 0)
            return true;
    return false;
}

/* open, O_NONBLOCK: an open of a FIFO for one of its ends may wait for the other. */
static bool may_wait_to_open(const struct request *request)
{
    struct stat found;
    bool refused = (request->flags & O_CREAT) != 0 && (request->flags & O_EXCL) != 0;
    return request->mode != O_RDWR && (request->flags & O_NONBLOCK) == 0 && !refused && stat(request->name, &found) == 0
        && S_ISFIFO(found.st_mode) && has_room();
}

static struct answer made(const struct request *request)
{
    int64_t value = make_call(request, NULL, NULL);
    return answered(value, errno);
}

struct answer try_call(const struct request *request)
{
    sigpipe_came = 0;
    switch (request->call) {
    case READ:
    case WRITE:
        return try_transfer(request);
    case POLL:
        return try_poll(request);
    case OPEN:
        return may_wait_to_open(request) ? start_opener(request) : made(request);
    default:
        return try_move(request);
    }
}

/* ---- A process that opens a FIFO: its table has no other descriptor, so it keeps nothing open, and the open is its descriptor 0 ---- */

struct answer start_opener(const struct request *request)
{
    struct waiter *waiter = &shared->waiters[request->place];
    *waiter = (struct waiter){ .value = 0 };
    pid_t opener = fork();
    if (opener == 0) {
        syscall(SYS_close_range, 0U, ~0U, 0U);
        atomic_store(&waiter->calling, true);
        waiter->value = make_call(request, NULL, NULL);
        waiter->error = errno;
        atomic_store(&waiter->done, true);
        while (getppid() != 1 && kill(shared->master, 0) == 0)
            sleep(1);
        _exit(0);
    }
    if (opener < 0)
        return answered(-1, errno);
    waiter->pid = waiter->tid = opener;
    return (struct answer){ .outcome = STARTED };
}

/* Takes the descriptor of the process that opened it, as the least that is free here. The process is gone then. */
struct answer fetch(const struct request *request)
{
    struct waiter *waiter = &shared->waiters[request->place];
    int value = -1, error = waiter->error;
    limit_descriptors(false);
    int low = (int)syscall(SYS_pidfd_open, waiter->pid, 0U), opener = keep(low);
    close(low);
    limit_descriptors(true);
    if (waiter->value >= 0) {
        value = (int)syscall(SYS_pidfd_getfd, opener, (int)waiter->value, 0U);
        error = errno;
    }
    kill(waiter->pid, SIGKILL);
    struct pollfd gone = { .fd = opener, .events = POLLIN };
    poll(&gone, 1, PATIENCE * 1000);
    close(opener);
    return answered(value, error);
}

/* ---- Calls in threads ---- */

/* A call in a thread, with what it reads or writes. */
struct threaded {
    struct request request;
    uint8_t *bytes;
    pthread_t thread;
    struct threaded *next;
};

static struct threaded *all_threaded;

static void *block(void *given)
{
    struct threaded *call = given;
    struct waiter *waiter = &shared->waiters[call->request.place];
    waiter->tid = (pid_t)syscall(SYS_gettid);
    sigpipe_came = 0;
    atomic_store(&waiter->calling, true);
    waiter->value = make_call(&call->request, call->bytes, call->request.entries);
    waiter->error = errno;
    waiter->sigpipe = sigpipe_came != 0;
    atomic_store(&waiter->done, true);
    return NULL;
}

struct answer start_thread(const struct request *request)
{
    struct threaded *call = malloc(sizeof *call);
    size_t count = request->call == WRITE ? request->byte_count : request->call == READ ? request->length : 0;
    if (count > MOST_BYTES)
        count = MOST_BYTES;
    if (call == NULL || (call->bytes = malloc(count + 1)) == NULL) {
        free(call);
        return answered(-1, ENOMEM);
    }
    call->request = *request;
    if (request->call == WRITE)
        memcpy(call->bytes, shared->bytes, count);
    shared->waiters[request->place] = (struct waiter){ .pid = getpid() };
    /* the thread finds its place filled in, and tells its number itself */
    int error = pthread_create(&call->thread, NULL, block, call);
    if (error != 0) {
        free(call->bytes);
        free(call);
        return answered(-1, error);
    }
    call->next = all_threaded;
    all_threaded = call;
    return (struct answer){ .outcome = STARTED };
}

static struct threaded **threaded_at(int place)
{
    struct threaded **at = &all_threaded;
    while (*at != NULL && (*at)->request.place != place)
        at = &(*at)->next;
    return at;
}

struct answer collect(const struct request *request)
{
    struct threaded **at = threaded_at(request->place), *call = *at;
    struct waiter *waiter = &shared->waiters[request->place];
    pthread_join(call->thread, NULL);
    *at = call->next;
    struct answer answer = answered(waiter->value, waiter->error);
    answer.sigpipe = waiter->sigpipe;
    if (call->request.call == READ && waiter->value > 0)
        memcpy(shared->bytes, call->bytes, (size_t)waiter->value);
    memcpy(answer.entries, call->request.entries, sizeof answer.entries);
    free(call->bytes);
    free(call);
    return answer;
}

struct answer break_call(const struct request *request)
{
    struct threaded *call = *threaded_at(request->place);
    struct waiter *waiter = &shared->waiters[request->place];
    while (!atomic_load(&waiter->done)) {
        pthread_kill(call->thread, SIGUSR1);
        usleep(100);
    }
    return collect(request);
}

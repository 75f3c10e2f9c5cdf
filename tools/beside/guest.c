/* A process of the host that makes the calls of a process of the script. Its descriptors are the script's alone: it is told what to do, and
 * answers, in shared memory. */
#include "beside.h"

#include <signal.h>
#include <sys/resource.h>
#include <sys/stat.h>
#include <sys/syscall.h>
#include <time.h>

static struct answer answer_of(int64_t value)
{
    return value < 0 ? (struct answer){ .outcome = FAULT, .error = errno } : (struct answer){ .outcome = DONE, .value = value };
}

/* The child has the parent's descriptors, and none of those that are kept for calls that wait. */
static struct answer make_child(const struct request *request)
{
    uint32_t child = request->child;
    pid_t made = fork();
    if (made == 0) {
        syscall(SYS_close_range, (unsigned)FIRST_KEPT, ~0U, 0U);
        be_guest(child);
    }
    return answer_of(made);
}

static struct answer make_pipe(const struct request *request)
{
    struct answer answer = { .outcome = DONE };
    if (pipe2(answer.ends, request->flags) != 0)
        return answer_of(-1);
    return answer;
}

static struct answer plain_call(const struct request *request)
{
    int fd = request->fd[0];
    switch (request->call) {
    case PIPE:
        return make_pipe(request);
    case MKFIFO:
        return answer_of(mkfifo(request->name, 0600));
    case UNLINK:
        return answer_of(unlink(request->name));
    case DUP:
        return answer_of(dup(fd));
    case DUP2:
        return answer_of(dup2(fd, request->fd[1]));
    case DUP_FD:
        return answer_of(fcntl(fd, F_DUPFD, request->least));
    case CLOSE:
        return answer_of(close(fd));
    case LSEEK:
        return answer_of(lseek(fd, request->seek, request->whence));
    case GET_FL:
        return answer_of(fcntl(fd, F_GETFL));
    case SET_FL:
        return answer_of(fcntl(fd, F_SETFL, request->flags));
    case GET_SZ:
        return answer_of(fcntl(fd, F_GETPIPE_SZ));
    case SET_SZ:
        return answer_of(fcntl(fd, F_SETPIPE_SZ, (unsigned long)request->length));
    case FORK:
        return make_child(request);
    default:
        return (struct answer){ .outcome = FAULT, .error = ENOSYS };
    }
}

static struct answer answer_to(const struct request *request)
{
    switch (request->call) {
    case READ:
    case WRITE:
    case SPLICE:
    case TEE:
    case POLL:
    case OPEN:
        return shared->in_threads ? start_thread(request) : try_call(request);
    case COLLECT:
        return collect(request);
    case FETCH:
        return fetch(request);
    case BREAK:
        return break_call(request);
    case LET_GO:
        let_go(request);
        return (struct answer){ .outcome = DONE };
    default:
        return plain_call(request);
    }
}

/* Waits until it is told something, or the program that started it is gone. */
static void await(uint32_t pid)
{
    for (;;) {
        struct timespec until;
        clock_gettime(CLOCK_REALTIME, &until);
        until.tv_sec += 2;
        if (sem_timedwait(&shared->go[pid], &until) == 0)
            return;
        if (errno == ETIMEDOUT && kill(shared->master, 0) != 0)
            _exit(1);
    }
}

_Noreturn void be_guest(uint32_t pid)
{
    for (;;) {
        await(pid);
        struct request request = shared->request;
        if (request.call == EXIT)
            _exit(0);
        shared->answer = answer_to(&request);
        if (request.again && shared->answer.outcome != WAITS)
            let_go(&request);
        sem_post(&shared->done);
    }
}

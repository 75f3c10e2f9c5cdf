/* The front for threads: records, processes, pipes, names, descriptors, and what is told of them. */
#define _GNU_SOURCE
#include "bindingclay_shared_inside.h"

#include <errno.h>
#include <fcntl.h>
#include <limits.h>
#include <stdarg.h>
#include <string.h>
#include <sys/ioctl.h>

/* O_DIRECT is another number on some processors, and is turned below. The library has the others, and the errors, as most processors have them. */
_Static_assert(O_CREAT == 0100 && O_EXCL == 0200 && O_TRUNC == 01000 && O_APPEND == 02000 && O_NONBLOCK == 04000, "the library's flags");
_Static_assert(EAGAIN == 11 && EINVAL == 22 && EPIPE == 32 && ENAMETOOLONG == 36 && EOVERFLOW == 75, "the library's errors");

/* ---- Records ---- */

int bc_record(bc_shared *shared, bool on)
{
    const bc_process nobody = { .shared = shared };
    bc_lock(shared);
    return (int)bc_done(&nobody, bindingclay_record(shared->clay, on));
}

ssize_t bc_recorded(bc_shared *shared, void *into, size_t size)
{
    const bc_process nobody = { .shared = shared };
    bc_lock(shared);
    return (ssize_t)bc_done(&nobody, bindingclay_recorded(shared->clay, into, size));
}

/* ---- Processes ---- */

/* Under the lock: the answer of a start or a fork, with the handle of the process that it made. */
static bindingclay_answer made(bc_shared *shared, bindingclay_answer answer, bc_process *process)
{
    if (answer.kind == BINDINGCLAY_DONE) {
        *process = (bc_process){ .shared = shared, .pid = (uint32_t)answer.value, .birth = ++shared->born };
        shared->of[process->pid].birth = process->birth;
    }
    return answer;
}

int bc_start(bc_shared *shared, bc_process *process)
{
    const bc_process nobody = { .shared = shared };
    bc_lock(shared);
    return bc_done(&nobody, made(shared, bindingclay_start(shared->clay), process)) < 0 ? -1 : 0;
}

pid_t bc_fork(const bc_process *parent, bc_process *child)
{
    bc_shared *shared = parent->shared;
    /* a child may take its parent's place in a variable */
    const bc_process before = *parent;
    if (!bc_in(&before))
        return -1;
    return (pid_t)bc_done(&before, made(shared, bindingclay_fork(shared->clay, before.pid), child));
}

int bc_exit(const bc_process *process)
{
    bc_shared *shared = process->shared;
    if (!bc_in(process))
        return -1;
    /* as the process is there, nothing keeps it from its exit */
    bc_abandon(shared, process->pid);
    bindingclay_answer answer = bindingclay_exit(shared->clay, process->pid);
    if (bc_unrecorded(shared, answer))
        answer = bindingclay_exit(shared->clay, process->pid);
    shared->of[process->pid].birth = 0;
    return (int)bc_done(process, answer);
}

bc_process bc_until(const bc_process *process, const struct timespec *deadline)
{
    bc_process same = *process;
    same.has_deadline = deadline != NULL;
    same.deadline = (struct timespec){ 0, 0 };
    if (deadline != NULL && deadline->tv_nsec >= 0 && deadline->tv_nsec < 1000000000)
        same.deadline = *deadline;
    return same;
}

/* ---- Pipes and names ---- */

int bc_pipe2(const bc_process *process, int ends[2], int flags)
{
    uint32_t wanted = (uint32_t)(flags & ~(O_CLOEXEC | O_DIRECT)) | ((flags & O_DIRECT) != 0 ? BINDINGCLAY_O_DIRECT : 0);
    if (!bc_in(process))
        return -1;
    bindingclay_ends made_ends = { -1, -1 };
    bindingclay_answer answer = bindingclay_pipe2(process->shared->clay, process->pid, wanted, &made_ends);
    if (answer.kind == BINDINGCLAY_DONE) {
        ends[0] = made_ends.read_end;
        ends[1] = made_ends.write_end;
    }
    return (int)bc_done(process, answer);
}

static const uint8_t *bytes_of(const char *name)
{
    return (const uint8_t *)name;
}

int bc_open(const bc_process *process, const char *name, int flags, ...)
{
    static const struct bc_room room = { .kind = BC_OPENS };
    if (!bc_in(process))
        return -1;
    bindingclay_answer answer =
        bindingclay_open_name(process->shared->clay, process->pid, bytes_of(name), strlen(name), (uint32_t)flags);
    return (int)bc_concluded(process, bc_awaited(process, answer, &room, bc_deadline(process)));
}

int bc_mkfifo(const bc_process *process, const char *name, mode_t mode)
{
    (void)mode;
    if (!bc_in(process))
        return -1;
    return (int)bc_done(process, bindingclay_mkfifo(process->shared->clay, process->pid, bytes_of(name), strlen(name)));
}

int bc_unlink(const bc_process *process, const char *name)
{
    if (!bc_in(process))
        return -1;
    return (int)bc_done(process, bindingclay_unlink(process->shared->clay, process->pid, bytes_of(name), strlen(name)));
}

/* ---- Descriptors ---- */

/* Under the lock: a descriptor names what it named no longer. Writes of which pieces are to follow by its number end behind the piece that waits. */
static void cut_off(const bc_process *process, int fd)
{
    for (struct bc_pieces *pieces = process->shared->pieces; pieces != NULL; pieces = pieces->next)
        if (pieces->pid == process->pid && pieces->fd == fd)
            pieces->is_cut_off = true;
}

int bc_close(const bc_process *process, int fd)
{
    if (!bc_in(process))
        return -1;
    bindingclay_answer answer = bindingclay_close(process->shared->clay, process->pid, fd);
    if (answer.kind == BINDINGCLAY_DONE)
        cut_off(process, fd);
    return (int)bc_done(process, answer);
}

int bc_dup(const bc_process *process, int fd)
{
    if (!bc_in(process))
        return -1;
    return (int)bc_done(process, bindingclay_dup(process->shared->clay, process->pid, fd));
}

int bc_dup2(const bc_process *process, int fd, int target)
{
    if (!bc_in(process))
        return -1;
    bindingclay_answer answer = bindingclay_dup2(process->shared->clay, process->pid, fd, target);
    if (answer.kind == BINDINGCLAY_DONE && fd != target)
        cut_off(process, target);
    return (int)bc_done(process, answer);
}

int bc_dup3(const bc_process *process, int fd, int target, int flags)
{
    if ((flags & ~O_CLOEXEC) != 0 || fd == target) {
        errno = EINVAL;
        return -1;
    }
    return bc_dup2(process, fd, target);
}

/* The mode and the flags of a descriptor, with the host's number of O_DIRECT. */
static bindingclay_answer got_flags(bindingclay clay, uint32_t pid, int fd)
{
    bindingclay_answer answer = bindingclay_get_fl(clay, pid, fd);
    if (answer.kind == BINDINGCLAY_DONE && (answer.value & BINDINGCLAY_O_DIRECT) != 0)
        answer.value = (answer.value & ~(uint64_t)BINDINGCLAY_O_DIRECT) | O_DIRECT;
    return answer;
}

/* The answer of a command of fcntl. */
static bindingclay_answer commanded(bindingclay clay, uint32_t pid, int fd, int command, int argument)
{
    switch (command) {
    case F_DUPFD:
    case F_DUPFD_CLOEXEC:
        return bindingclay_dup_fd(clay, pid, fd, argument);
    case F_GETFL:
        return got_flags(clay, pid, fd);
    case F_SETFL:
        return bindingclay_set_fl(clay, pid, fd, (uint32_t)argument);
    case F_GETPIPE_SZ:
        return bindingclay_get_pipe_sz(clay, pid, fd);
    case F_SETPIPE_SZ:
        return bindingclay_set_pipe_sz(clay, pid, fd, (uint32_t)argument);
    default:
        return (bindingclay_answer){ .kind = BINDINGCLAY_FAULT, .error = EINVAL };
    }
}

int bc_fcntl(const bc_process *process, int fd, int command, ...)
{
    int argument = 0;
    if (command == F_DUPFD || command == F_DUPFD_CLOEXEC || command == F_SETFL || command == F_SETPIPE_SZ) {
        va_list arguments;
        va_start(arguments, command);
        argument = va_arg(arguments, int);
        va_end(arguments);
    }
    if (!bc_in(process))
        return -1;
    return (int)bc_done(process, commanded(process->shared->clay, process->pid, fd, command, argument));
}

/* ---- What is there ---- */

off_t bc_lseek(const bc_process *process, int fd, off_t offset, int whence)
{
    if (!bc_in(process))
        return -1;
    return (off_t)bc_done(process, bindingclay_lseek(process->shared->clay, process->pid, fd, offset, whence));
}

/* How many bytes a read of a descriptor could give. */
static bindingclay_answer readable(bindingclay clay, uint32_t pid, int fd)
{
    bindingclay_node_facts facts;
    bindingclay_answer answer = bindingclay_fd_facts(clay, pid, fd, &facts);
    if (answer.kind != BINDINGCLAY_DONE || facts.kind != BINDINGCLAY_FILE)
        return answer.kind == BINDINGCLAY_DONE ? bindingclay_held(clay, pid, fd) : answer;
    answer = bindingclay_lseek(clay, pid, fd, 0, SEEK_CUR);
    if (answer.kind == BINDINGCLAY_DONE)
        answer.value = answer.value < facts.size ? facts.size - answer.value : 0;
    return answer;
}

int bc_ioctl(const bc_process *process, int fd, unsigned long request, ...)
{
    va_list arguments;
    if (!bc_in(process))
        return -1;
    bindingclay_answer answer = readable(process->shared->clay, process->pid, fd);
    if (answer.kind == BINDINGCLAY_DONE && request != FIONREAD)
        answer = (bindingclay_answer){ .kind = BINDINGCLAY_FAULT, .error = ENOTTY };
    int64_t bytes = bc_done(process, answer);
    if (bytes < 0)
        return -1;
    va_start(arguments, request);
    *va_arg(arguments, int *) = (int)bytes;
    va_end(arguments);
    return 0;
}

int bc_fstat(const bc_process *process, int fd, struct stat *facts)
{
    if (!bc_in(process))
        return -1;
    bindingclay_node_facts told = { 0, 0, 0 };
    if (bc_done(process, bindingclay_fd_facts(process->shared->clay, process->pid, fd, &told)) < 0)
        return -1;
    bool is_file = told.kind == BINDINGCLAY_FILE;
    memset(facts, 0, sizeof *facts);
    facts->st_mode = is_file ? S_IFREG : S_IFIFO;
    facts->st_size = (off_t)told.size;
    facts->st_ino = 2 * told.key + is_file;
    facts->st_nlink = 1;
    facts->st_blksize = 4096;
    return 0;
}

/* Bindingclay for threads: a kernel behind a lock, and calls that wait, named and shaped as POSIX has them.
 *
 * A call takes the process that makes it as its first argument. It answers as the call of POSIX does: -1 with errno if it fails. A call that
 * would wait lets its thread sleep until the call is answered. Any number of threads may make calls at once, of one process or of many.
 *
 * Which calls wake. After each step the thread that made it tries again the calls that bindingclay_next_ready names, until it names none.
 * It hands each answer to the thread that waits for it, and wakes only that thread. So no thread wakes in vain.
 *
 * How a wait ends otherwise. Another thread ends it by bc_interrupt or bc_interrupt_thread (EINTR), the process by bc_exit (ESRCH), and the
 * clock by the deadline of the handle (ETIMEDOUT). If memory runs out as the call is tried again, it ends with ENOMEM. A write that put in
 * bytes before answers their count in each of these cases.
 *
 * Memory. Each call that finds no memory fails with ENOMEM, and has changed nothing. A large write leaves
 * most of its bytes with the caller: at most 8,193 of them are copied while it waits. What the front needs of a thread that waits is on its stack,
 * except that bc_readv and bc_writev of more than 4,096 bytes take a buffer for all of them until they return. No limit of the kernel counts it.
 *
 * Each function names its own errors here. Each can fail with ESRCH if the process exited, and with ENOMEM. A call that may wait can fail with
 * EINTR, ETIMEDOUT, and with EAGAIN if as many calls wait as the limit waiting_calls allows, or as many of the process as waiting_of_each allows.
 * All other errors are those of the function of bindingclay.h that it is named for.
 *
 * A size above 2,147,479,552 (BINDINGCLAY_MOST_SIZE) fails with EINVAL before all else, and nothing is read or written.
 *
 * Make no call from a signal handler, nor in the forked child of a host that has threads. A thread must not be cancelled in a call.
 */
#ifndef BINDINGCLAY_SHARED_H
#define BINDINGCLAY_SHARED_H

#include "bindingclay.h"

#include <poll.h>
#include <pthread.h>
#include <semaphore.h>
#include <sys/stat.h>
#include <sys/types.h>
#include <sys/uio.h>
#include <time.h>

#ifdef __cplusplus
extern "C" {
#endif

/* A kernel that threads share. */
typedef struct bc_shared bc_shared;

/* A process, as bc_start, bc_fork or bc_until gave it. Copies of this struct are the same process. A handle whose process exited answers ESRCH,
 * also if its pid was given again. */
typedef struct {
    bc_shared *shared;
    uint32_t pid;
    /* Whether there is a deadline. */
    bool has_deadline;
    /* Which of the processes of the kernel it is, counted from 1 as they were made. */
    uint64_t birth;
    /* When calls through this handle give up to wait, by CLOCK_MONOTONIC. */
    struct timespec deadline;
} bc_process;

/* What is called where SIGPIPE is due, in the thread whose call it is, without the lock. So it may make calls. */
typedef void (*bc_sigpipe_hook)(void *context, const bc_process *process);

/* What a thread does that waits for a call without a deadline: it has to wait for the semaphore, as sem_wait does. It is called without the lock,
 * so it may make calls. If it answers other than 0, the call ends with EINTR, unless it is answered already; then the hook is called again. */
typedef int (*bc_sleep_hook)(void *context, sem_t *answered);

/* ---- Kernels ---- */

/* Makes a kernel within limits, and writes it to *shared. Null limits are BINDINGCLAY_LIMITS. Returns 0, or -1 with ENOMEM if memory runs out or
 * bindingclay_open_within refuses the limits. It takes 16 bytes for each process that there may be, at once. No limit of the kernel counts these.
 * Close it with bc_shared_close. */
int bc_shared_open(const bindingclay_limits *limits, bc_shared **shared);

/* Frees a kernel and all that it holds. Nothing may use it from then on. Returns 0, or -1 with EBUSY if a call waits, or a thread hasn't come back
 * from a call yet: then nothing changed. A call that is answered may still be on its way out, or in a hook. So join the threads that make calls,
 * or close again. No call may begin while a kernel is closed, and none finds out. */
int bc_shared_close(bc_shared *shared);

/* Sets what is called where SIGPIPE is due. Without a hook, or with a null one, such a call only fails with EPIPE. Set it before other threads make
 * calls. */
void bc_on_sigpipe(bc_shared *shared, bc_sigpipe_hook hook, void *context);

/* Sets how threads sleep whose calls wait, so that a signal of the host can end a call. Without a hook, or with a null one, they sleep by sem_wait,
 * and signals end no call. Calls with a deadline, and polls with a timeout, don't call it. Set it before other threads make calls. */
void bc_on_sleep(bc_shared *shared, bc_sleep_hook hook, void *context);

/* Tells how much memory the kernel takes, as bindingclay_memory does. */
bindingclay_memory_use bc_memory(bc_shared *shared);

/* Begins to record the steps of the kernel, or ends that if on is false, as bindingclay_record does. Returns 0, or -1 with EINVAL to begin once a
 * process was started or a recording begun. The steps of all threads are in the record, in the order in which they were made, with each try
 * of a call that waits. While they are recorded, any call may fail with ENOMEM. But an exit doesn't, and each call that waits comes to its end: if
 * there is no memory to record that, the recording ends, and what wasn't handed out is dropped. */
int bc_record(bc_shared *shared, bool on);

/* Hands out the first bytes of the record that weren't handed out, at most size, as bindingclay_recorded does. Any thread may do so at any time.
 * Returns how many, 0 if none is left or size is 0, or -1. Fails with EINVAL if no recording goes on. */
ssize_t bc_recorded(bc_shared *shared, void *into, size_t size);

/* ---- Processes ---- */

/* Starts a process without descriptors, and writes it to *process. Returns 0, or -1 with EAGAIN if there are as many processes as the limit
 * processes_max allows. */
int bc_start(bc_shared *shared, bc_process *process);

/* Makes a child whose descriptors name what those of the parent name, and writes it to *child (fork). Returns its pid, or -1 with EAGAIN if there
 * are as many processes as the limit processes_max allows. No thread is made. The child has no deadline. */
pid_t bc_fork(const bc_process *parent, bc_process *child);

/* Ends a process (_exit). Its descriptors are closed. Its calls that wait fail with ESRCH in their threads. Returns 0, or -1. */
int bc_exit(const bc_process *process);

/* Gives the same process with a deadline by CLOCK_MONOTONIC, or without one if it is null. A call through this handle that would wait longer
 * fails with ETIMEDOUT. If the deadline has passed, the call is tried once. A deadline whose tv_nsec isn't within 0 to 999,999,999 has passed. */
bc_process bc_until(const bc_process *process, const struct timespec *deadline);

/* Ends the calls of a process that wait, as a signal does: they fail with EINTR. Returns how many, or -1. A call that begins later isn't ended. */
int bc_interrupt(const bc_process *process);

/* Ends the call for which a thread waits: it fails with EINTR. Returns 1, or 0 if the thread waits for none. A call that begins later isn't
 * ended. */
int bc_interrupt_thread(bc_shared *shared, pthread_t thread);

/* Tells how many calls of a process wait. Returns that, or -1. */
int bc_waiting(const bc_process *process);

/* ---- Pipes and names ---- */

/* Makes a pipe, and writes its read end to ends[0] and its write end to ends[1] (pipe2(2)). flags: O_NONBLOCK, O_DIRECT of fcntl.h or
 * BINDINGCLAY_O_DIRECT, and O_CLOEXEC, which has no effect since there is no exec. Returns 0, or -1. */
int bc_pipe2(const bc_process *process, int ends[2], int flags);

/* Opens a name (open). flags are those of bindingclay_open_name. A mode behind them is ignored. The open of one end of a FIFO waits for the other
 * one, unless flags has O_NONBLOCK. Returns the descriptor, or -1. */
int bc_open(const bc_process *process, const char *name, int flags, ...);

/* Makes a FIFO (mkfifo). The mode is ignored. Returns 0, or -1. */
int bc_mkfifo(const bc_process *process, const char *name, mode_t mode);

/* Removes a name (unlink). Returns 0, or -1. */
int bc_unlink(const bc_process *process, const char *name);

/* ---- Bytes ---- */

/* Reads at most size bytes (read). May wait. Returns how many, 0 at the end, or -1. */
ssize_t bc_read(const bc_process *process, int fd, void *into, size_t size);

/* Reads into count buffers, one after another, as one read does (readv). May wait. Returns how many bytes, or -1. Fails with EINVAL if count isn't
 * within 0 to 1,024, or if the sum of the sizes is above BINDINGCLAY_MOST_SIZE. */
ssize_t bc_readv(const bc_process *process, int fd, const struct iovec *buffers, int count);

/* Writes size bytes (write). May wait. Returns how many went in, or -1. At most 4,096 bytes go into a pipe whole or not at all. */
ssize_t bc_write(const bc_process *process, int fd, const void *bytes, size_t size);

/* Writes the bytes of count buffers, one after another, as one write does (writev). May wait. Returns how many went in, or -1. Fails with EINVAL
 * as bc_readv does. */
ssize_t bc_writev(const bc_process *process, int fd, const struct iovec *buffers, int count);

/* Sets the offset of a regular file (lseek). Returns the offset, or -1. */
off_t bc_lseek(const bc_process *process, int fd, off_t offset, int whence);

/* Moves at most size bytes from one descriptor to another (splice(2)). May wait. Returns how many, 0 at the end of the source, or -1. An offset that
 * is given is advanced by what was moved, as Linux does. */
ssize_t bc_splice(const bc_process *process, int from, off_t *from_offset, int to, off_t *to_offset, size_t size, unsigned flags);

/* Copies at most size bytes from the front of one pipe to another (tee(2)). May wait. Returns how many, 0 at the end of the source, or -1. */
ssize_t bc_tee(const bc_process *process, int from, int to, size_t size, unsigned flags);

/* Tells for each entry which of its events hold (poll), and waits until one does or timeout milliseconds have passed. A timeout below 0 is none.
 * Returns how many entries have a revents that isn't 0, 0 if time is up, or -1. Fails with EINVAL if there are more entries than the limit
 * descriptors_max, and more than 256. */
int bc_poll(const bc_process *process, struct pollfd *entries, nfds_t count, int timeout);

/* ---- Descriptors ---- */

/* Closes a descriptor (close). A call of another thread that waits on it goes on with what it named. But a large write puts in at most 8,193 bytes
 * more, and answers how many went in. Returns 0, or -1. */
int bc_close(const bc_process *process, int fd);

/* Makes the least free descriptor name what fd names (dup). Returns it, or -1. */
int bc_dup(const bc_process *process, int fd);

/* Makes target name what fd names (dup2). Returns target, or -1. */
int bc_dup2(const bc_process *process, int fd, int target);

/* Does what bc_dup2 does, and fails with EINVAL if both are the same, or if flags has another flag than O_CLOEXEC, which has no effect (dup3(2)). */
int bc_dup3(const bc_process *process, int fd, int target, int flags);

/* Does one of F_DUPFD, F_DUPFD_CLOEXEC, F_GETFL, F_SETFL, F_GETPIPE_SZ and F_SETPIPE_SZ (fcntl). F_DUPFD_CLOEXEC does what F_DUPFD does. F_GETFL
 * tells O_DIRECT of fcntl.h of a packet pipe. Returns what fcntl does, or -1. Fails with EINVAL if the command is another one. */
int bc_fcntl(const bc_process *process, int fd, int command, ...);

/* With FIONREAD, writes to the int behind it how many bytes a pipe holds, or how many a file has behind its offset (ioctl_tty(2)). Returns 0, or
 * -1. Fails with ENOTTY if the request is another one. */
int bc_ioctl(const bc_process *process, int fd, unsigned long request, ...);

/* Tells what a descriptor stands for (fstat): st_mode is S_IFIFO or S_IFREG, and st_size the bytes of a file, or those that a pipe holds. st_ino
 * tells pipes and files apart. st_nlink is 1, st_blksize 4,096, and the other fields are 0. Returns 0, or -1. */
int bc_fstat(const bc_process *process, int fd, struct stat *facts);

#ifdef __cplusplus
}
#endif

#endif

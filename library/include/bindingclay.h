/* Bindingclay: POSIX pipes, FIFOs and regular files in the memory of one process, with splice, tee and poll.
 *
 * A kernel has its own processes, descriptors, pipes, FIFOs and files, and nothing of the system's. Its pids, descriptors and names mean
 * something only in its own calls. Each call makes at most one step of the kernel, and returns at once.
 *
 * Threads. A kernel takes one call at a time: threads that share a kernel hold a lock of yours around each call. A kernel may move from
 * thread to thread under that lock, or when a thread starts or ends. Two kernels share nothing, and need no lock between them. Make no call
 * from a signal handler, or in the forked child of a process that has threads. No call blocks, starts a thread, or asks the system for
 * anything except memory.
 *
 * Waiting. A call that would wait answers BINDINGCLAY_PARKED. That is an answer, and its value is the call's number. If as many calls
 * already wait as the limit waiting_calls allows, or as many of the process as waiting_of_each allows, the call answers EAGAIN instead, and has
 * taken and given nothing. Keep the number. bindingclay_can_progress tells whether trying the call again gets it on: whether it would be
 * answered, or a write would put in more of its bytes. bindingclay_next_ready tells the number of a call that can. So after any call, try again
 * the call that it names, with bindingclay_resume, or a poll with bindingclay_resume_poll. Do so until it names none: a call that is tried
 * again can help another. Then no call waits that could go on, and none was tried in vain. bindingclay_interrupt ends a call that waits.
 *
 * A parked call keeps open what it found open, until it is answered, it is interrupted, or its process exits. An open of a FIFO keeps the
 * end that it makes, which counts as an end from then on.
 *
 * Memory. It comes from malloc and realloc, and is given back by free. All three belong to one allocator, which aligns as C demands. A call
 * that finds no memory answers BINDINGCLAY_NO_MEMORY. It has changed nothing, neither the kernel nor what its pointers point to: make it
 * again once there is some. Some calls, marked below, ask for none. A call that is refused for another reason has asked for none either,
 * except the calls with a name, which copy it first. While steps are recorded, any call may find none for its lines (bindingclay_record).
 * bindingclay_free gives back all memory.
 *
 * bindingclay_open_within sets how many bytes a kernel may hold. If a call would want more, there is no memory for it. bindingclay_memory
 * tells how many bytes the kernel holds. It may tell more after a call that found no memory, as a table may have grown. The next call that
 * wants that table uses it. Close, exit, interrupt and a read that is resumed always find what they need, so a guest at its limit can free
 * what it has. Up to spare_max bytes of that stay with the kernel (spare). A step that finds no memory gives all of these back: made again, it
 * has them. A call that finds none for the copy of its name, or for its line of a record, gives nothing back. The tables of segments and
 * descriptions stay too, each as long as it ever was. They take up to 170 bytes for each. Those of waiting calls, pipes, files, processes and
 * descriptors become shorter as these go.
 *
 * Pointers. A pointer may be null only if it points to 0 bytes or to 0 entries, or is an offset of bindingclay_splice. What a call writes
 * to overlaps nothing else that the call is given, and nothing that it is given overlaps the kernel's own memory. The library keeps no
 * pointer of yours after a call: a write that is parked has a copy of its bytes. It is undefined behaviour to use a handle that was freed,
 * a handle that neither bindingclay_open nor bindingclay_open_within gave, or one handle in two calls at once. No call detects it.
 *
 * Sizes. A call that is given a size above 2,147,479,552 (BINDINGCLAY_MOST_SIZE) fails with EINVAL, before all else. No step is made, and nothing
 * is read or written: a call that waits still waits. So the -1 of a call that failed, taken for a size, does no harm. Linux transfers no more
 * than that in one call, and cuts a larger size or fails with EFAULT. Sizes are of bytes, of room for them, of names, and of entries; and the len
 * of a splice or a tee. The functions below check them in the program. So a caller that makes the calls of the library without this header,
 * from another language, checks them itself.
 *
 * Errors. Errors and flags have Linux's numbers, as errno.h, fcntl.h and poll.h define them there. Each call below lists its errors in the
 * order in which it checks them. A page that is named below is one of POSIX.1-2017. With (2) or (7) behind its name it is one of Linux.
 * docs/RULES.md of the project has each rule, and the order of the refusals.
 *
 * Versions. In 0.x, a new minor number may change what is declared here, and a new patch number doesn't. Compare BINDINGCLAY_VERSION, the
 * version of this header, with bindingclay_version(), the version of the library.
 */
#ifndef BINDINGCLAY_H
#define BINDINGCLAY_H

#include <errno.h>
#include <stdbool.h>
#include <stddef.h>
#include <stdint.h>
#include <stdlib.h>
#include <string.h>

#ifdef __cplusplus
extern "C" {
#endif

#define BINDINGCLAY_VERSION_MAJOR 0
#define BINDINGCLAY_VERSION_MINOR 8
#define BINDINGCLAY_VERSION_PATCH 0
#define BINDINGCLAY_VERSION \
    (BINDINGCLAY_VERSION_MAJOR * 1000000 + BINDINGCLAY_VERSION_MINOR * 1000 + BINDINGCLAY_VERSION_PATCH)

/* What gives back the block of a budget. bindingclay_allocator.h defines it, for memory that isn't from malloc. */
#ifndef BINDINGCLAY_FREE
#define BINDINGCLAY_FREE free
#endif

/* The most bytes of a regular file. bindingclay_open and bindingclay_open_within may limit it further. */
#define BINDINGCLAY_MOST_FILE_BYTES 16777216

/* The most bytes that a pipe can be made to hold. bindingclay_open_within may limit it further. */
#define BINDINGCLAY_MOST_CAPACITY 1048576

/* How many descriptors a process may have, if nobody sets another limit, and the greatest limit that bindingclay_open_within takes. */
#define BINDINGCLAY_USUAL_DESCRIPTORS 256
#define BINDINGCLAY_MOST_DESCRIPTORS 65536

/* The same of the open file descriptions of a kernel. */
#define BINDINGCLAY_USUAL_DESCRIPTIONS 4096
#define BINDINGCLAY_MOST_DESCRIPTIONS 1048576

/* The same of the processes of a kernel. */
#define BINDINGCLAY_USUAL_PROCESSES 1024
#define BINDINGCLAY_MOST_PROCESSES 65536

/* The most bytes of one read or write. A larger one is cut to this many of its bytes, the first ones, and counts only these. */
#define BINDINGCLAY_MOST_BYTES 16777216

/* The greatest size that a call takes, the most that Linux transfers in one call (read(2)). A greater one fails with EINVAL, before all else. */
#define BINDINGCLAY_MOST_SIZE 2147479552

/* The flag of a packet pipe, for bindingclay_pipe2 and in what bindingclay_get_fl tells: O_DIRECT of fcntl.h on x86-64. On other processors
 * O_DIRECT may be another number, and a program without _GNU_SOURCE has none. */
#define BINDINGCLAY_O_DIRECT 040000

/* The most bytes of a packet, and the bytes of the capacity that each packet takes, however few it has. */
#define BINDINGCLAY_PACKET_BYTES 4096

/* One kernel, as bindingclay_open or bindingclay_open_within gave it. Copies of this struct are the same kernel. */
typedef struct {
    void *kernel;
} bindingclay;

/* What became of a call. */
enum bindingclay_kind {
    /* The call is done. value: its result, or 0 if it has none. */
    BINDINGCLAY_DONE = 0,
    /* The call failed. error: the reason, a number of errno.h. With EPIPE, sigpipe is set. */
    BINDINGCLAY_FAULT = 1,
    /* The call waits. value: its number, for bindingclay_resume and bindingclay_interrupt. moved: whether this step put bytes of a write
     * into the pipe. */
    BINDINGCLAY_PARKED = 2,
    /* There is no process of this pid. Nothing changed. */
    BINDINGCLAY_NO_PROCESS = 3,
    /* No call of this number waits. Nothing changed. */
    BINDINGCLAY_NO_CALL = 4,
    /* The call would wait, and no number is left: the last one is 18,446,744,073,709,551,614. Nothing changed. */
    BINDINGCLAY_CALLS_SPENT = 5,
    /* There is no memory. Nothing changed. */
    BINDINGCLAY_NO_MEMORY = 6,
    /* A read that is resumed would give more bytes than there is room for, or a file has more. value: how many. A poll that can make progress was
     * resumed without entries. value: how many it has. Nothing changed. */
    BINDINGCLAY_SHORT = 7
};

/* The answer of a call. A field that the comment on its kind doesn't name is 0, except that sigpipe may be set with a count. */
typedef struct {
    uint64_t value;
    int32_t error;
    uint8_t kind;
    /* A process would get SIGPIPE here: with EPIPE, and with the count of a write that is resumed after its last reader left. */
    bool sigpipe;
    /* With BINDINGCLAY_PARKED of bindingclay_write, bindingclay_resume and bindingclay_resume_poll: a write put some of its bytes into the pipe,
     * and waits with the others. So another call may make progress. bindingclay_taken tells how many bytes went in so far. */
    bool moved;
} bindingclay_answer;

/* Whether a size is one that a call takes. */
static inline bool bindingclay_c_is_size(size_t size)
{
    return size <= BINDINGCLAY_MOST_SIZE;
}

/* The answer to a size that is none. */
static inline bindingclay_answer bindingclay_c_no_size(void)
{
    bindingclay_answer refused = { 0, EINVAL, BINDINGCLAY_FAULT, false, false };
    return refused;
}

/* The descriptors of a pipe. */
typedef struct {
    int32_t read_end;
    int32_t write_end;
} bindingclay_ends;

/* An entry of a poll, laid out as the struct pollfd of poll.h. */
typedef struct {
    int32_t fd;
    int16_t events;
    int16_t revents;
} bindingclay_pollfd;

/* What a kernel may take. Begin with BINDINGCLAY_LIMITS, and change what should be otherwise. Then a later version may add fields at the end. */
typedef struct {
    /* The bytes of the struct. If it is a smaller one, the fields that it lacks are those of BINDINGCLAY_LIMITS. */
    uint64_t size;
    /* The number of the first call that waits. The next call that waits gets the next number, and so on. */
    uint64_t first_call;
    /* The most bytes that the kernel may hold, as they are asked of malloc and realloc. A call that would want more answers
     * BINDINGCLAY_NO_MEMORY. UINT64_MAX: no limit. */
    uint64_t memory;
    /* The most names of files and FIFOs at one time. A call that would make one more fails with ENOSPC. UINT64_MAX: no limit. */
    uint64_t names;
    /* The most calls that wait at one time. One more that would wait fails with EAGAIN, and has taken and given nothing. UINT64_MAX: no
     * limit. */
    uint64_t waiting_calls;
    /* The most bytes that bindingclay_set_pipe_sz lets a pipe hold; more fails with EPERM. At most BINDINGCLAY_MOST_CAPACITY. A new pipe
     * can hold 65,536 bytes all the same. */
    uint32_t capacity;
    /* The most bytes of a regular file. At most BINDINGCLAY_MOST_FILE_BYTES. */
    uint32_t file_max;
    /* The most descriptors of a process, numbered from 0 (getrlimit, RLIMIT_NOFILE). None from this number on is free: a call that would
     * give one fails with EMFILE. At most BINDINGCLAY_MOST_DESCRIPTORS. A poll takes as many entries, and 256 if this is less. A high
     * limit takes no memory by itself. A process takes 8 to 16 bytes for each descriptor up to the highest one that it opens, and gives most
     * of them back as it closes them. */
    uint64_t descriptors_max;
    /* The most bytes of memory that the kernel keeps for further bytes when no pipe or file holds them any more, in segments of 4,096. They
     * count as held. UINT64_MAX: 16,777,216, but at most a sixteenth of memory. */
    uint64_t spare_max;
    /* The most open file descriptions of the kernel at one time. A call that would make one more fails with ENFILE. At most
     * BINDINGCLAY_MOST_DESCRIPTIONS. */
    uint64_t descriptions_max;
    /* The most processes at one time, with pids from 1 to this number. One more fails with EAGAIN. At most BINDINGCLAY_MOST_PROCESSES. */
    uint64_t processes_max;
    /* The most calls of one process that wait at one time. One more of it fails as above waiting_calls, and the calls of other processes may still
     * wait. UINT64_MAX: no limit. */
    uint64_t waiting_of_each;
} bindingclay_limits;

/* The limits if nobody sets any: bindingclay_limits limits = BINDINGCLAY_LIMITS; */
#define BINDINGCLAY_LIMITS \
    { sizeof(bindingclay_limits), 1, UINT64_MAX, UINT64_MAX, UINT64_MAX, BINDINGCLAY_MOST_CAPACITY, BINDINGCLAY_MOST_FILE_BYTES, \
        BINDINGCLAY_USUAL_DESCRIPTORS, UINT64_MAX, BINDINGCLAY_USUAL_DESCRIPTIONS, BINDINGCLAY_USUAL_PROCESSES, UINT64_MAX }

/* How much memory a kernel takes, in bytes as they were asked of malloc and realloc. The block that holds the kernel itself and the block
 * that holds this count, about a kilobyte together, are no part of it. */
typedef struct {
    /* The bytes that it holds now. */
    uint64_t held;
    /* The most bytes that it held at once. */
    uint64_t peak;
    /* The most bytes that it may hold: memory of its limits. */
    uint64_t most;
    /* The bytes of held that are in segments kept for further bytes of pipes and files: at most spare_max of its limits. */
    uint64_t spare;
} bindingclay_memory_use;

/* Does what bindingclay_open_within does, with count words of limits: the fields in their order, where file_max is the upper half of the
 * word whose lower half is capacity. *budget is written once a block for the budget was taken from malloc. Give that block to free after
 * bindingclay_end, or at once if the answer is false. */
bool bindingclay_open_words(const uint64_t *limits, size_t count, void **kernel, void **budget);

/* Does what bindingclay_free does, except that the block of the budget stays. Its pointer is written to *budget. */
void bindingclay_end(bindingclay clay, void **budget);

/* Does what bindingclay_memory does, and writes the answer to *memory. */
void bindingclay_tell_memory(bindingclay clay, bindingclay_memory_use *memory);

/* Makes a kernel without processes, within limits, and writes its pointer to *kernel. Returns false, and writes nothing, if memory runs
 * out. It does the same if a limit is above its greatest: capacity, file_max, descriptors_max, descriptions_max and processes_max have one. So
 * it does if size isn't the size of such a struct. The kernel is yours: free it with bindingclay_free. */
static inline bool bindingclay_open_within(const bindingclay_limits *limits, void **kernel)
{
    void *budget = NULL;
    uint64_t words[sizeof(bindingclay_limits) / sizeof(uint64_t)];
    size_t count = (size_t)(limits->size / sizeof(uint64_t));
    if (limits->size % sizeof(uint64_t) != 0 || limits->size > sizeof words)
        return false;
    /* its fields are words, except that capacity and file_max share one: the lower half and the upper one, whatever the processor's order is */
    memcpy(words, limits, (size_t)limits->size);
    if (limits->size > offsetof(bindingclay_limits, file_max))
        words[offsetof(bindingclay_limits, capacity) / sizeof(uint64_t)] = (uint64_t)limits->file_max << 32 | limits->capacity;
    if (bindingclay_open_words(words, count, kernel, &budget))
        return true;
    BINDINGCLAY_FREE(budget);
    return false;
}

/* Makes a kernel without processes, and writes its pointer to *kernel. Returns false, and writes nothing, if memory runs out, or if
 * file_max is above BINDINGCLAY_MOST_FILE_BYTES. The kernel's first call that waits gets the number first_call, the next one the next
 * number, and so on. A regular file has at most file_max bytes. The other limits are those of BINDINGCLAY_LIMITS. The kernel is yours: free
 * it with bindingclay_free. */
static inline bool bindingclay_open(uint64_t first_call, uint32_t file_max, void **kernel)
{
    bindingclay_limits limits = BINDINGCLAY_LIMITS;
    limits.first_call = first_call;
    limits.file_max = file_max;
    return bindingclay_open_within(&limits, kernel);
}

/* Frees a kernel and all that it holds. Nothing may use it from then on. Asks for no memory. */
static inline void bindingclay_free(bindingclay clay)
{
    void *budget = NULL;
    bindingclay_end(clay, &budget);
    BINDINGCLAY_FREE(budget);
}

/* Tells how much memory a kernel takes. Asks for no memory. */
static inline bindingclay_memory_use bindingclay_memory(bindingclay clay)
{
    bindingclay_memory_use memory;
    bindingclay_tell_memory(clay, &memory);
    return memory;
}

/* The version of the library, as BINDINGCLAY_VERSION gives it. */
uint32_t bindingclay_version(void);

/* ---- Processes ---- */

/* Starts a process without descriptors. Value: its pid, the least one that is free, from 1 on. Fails with EAGAIN if there are as many
 * processes as the limit processes_max allows (fork). */
bindingclay_answer bindingclay_start(bindingclay clay);

/* Starts a process whose descriptors name what those of process pid name (fork). Value: its pid, the least one that is free. Calls that
 * wait stay the parent's. Fails with EAGAIN if there are as many processes as the limit processes_max allows. */
bindingclay_answer bindingclay_fork(bindingclay clay, uint32_t pid);

/* Ends a process (_exit). Its descriptors are closed, its calls that wait are gone without an answer, and its pid is free. Asks for no
 * memory. */
bindingclay_answer bindingclay_exit(bindingclay clay, uint32_t pid);

/* ---- Calls that wait ---- */

/* Tries again the call that waits under a number. It answers what the call would answer, or BINDINGCLAY_PARKED with the same number if the
 * call still waits. Then moved tells whether it is a write that put in more of its bytes. A fault ends the call too. For example, EMFILE
 * ends the open of a FIFO that has met its other end, if no descriptor is free. If there is no memory for that descriptor, the answer is
 * BINDINGCLAY_NO_MEMORY, and the open still waits.
 *
 * A read gives what its pipe holds, and no more than it asked for, into the first of the size bytes at into. Room for 1,048,576 bytes is
 * always enough. If size is less than what the read gives, BINDINGCLAY_SHORT tells how many bytes that is, and the read still waits. The
 * bytes behind what it read stay as they are. A read that is resumed asks for no memory.
 *
 * Other calls leave all bytes at into alone, and size may be 0. A poll that can make progress isn't ended, since its revents have no room here:
 * BINDINGCLAY_SHORT tells how many entries it has, and bindingclay_resume_poll resumes it. If no call of this number waits, the answer is
 * BINDINGCLAY_NO_CALL. If size is above BINDINGCLAY_MOST_SIZE, it is EINVAL before all else, and the call still waits. */
bindingclay_answer bindingclay_resume(bindingclay clay, uint64_t number, uint8_t *into, size_t size);

/* Tries again the poll that waits under a number. It answers as bindingclay_poll does, or BINDINGCLAY_PARKED with the same number. It looks
 * at what the poll found open when it began, and at what it was asked then. The entries are as many as it began with. If the poll is done,
 * their revents are written, in the same order, and nothing else of them is looked at. If there are fewer entries, the first revents are
 * told, and the others are lost. If there are more, those behind stay as they are. Any other call is resumed as by bindingclay_resume with
 * a size of 0. */
bindingclay_answer bindingclay_resume_poll(bindingclay clay, uint64_t number, bindingclay_pollfd *entries, size_t count);

/* Tells whether the call that waits under a number can make progress: if it is tried again now, it is answered, or it is a write that puts in more of
 * its bytes. If it can't, trying it again answers BINDINGCLAY_PARKED and moves no byte. If no call of this number waits, the answer is
 * true, since trying it again answers BINDINGCLAY_NO_CALL at once. Asks for no memory, and changes nothing. */
bool bindingclay_can_progress(bindingclay clay, uint64_t number);

/* Tells the least number, `from` or above, of a call that waits and can make progress. Value: that number. If no call from there on can, the answer
 * is BINDINGCLAY_NO_CALL. A call that answers BINDINGCLAY_SHORT or BINDINGCLAY_NO_MEMORY when it is tried again still waits, and still can
 * make progress: ask from the number behind it to pass over it. Changes nothing that another call tells. Asks for memory of its own, and answers the
 * same if there is none. */
bindingclay_answer bindingclay_next_ready(bindingclay clay, uint64_t from);

/* Tells how many bytes the call that waits under a number has taken. Value: of a write, how many of its bytes are in the pipe or were read
 * from it; of any other call, 0. If no call of this number waits, the answer is BINDINGCLAY_NO_CALL. Asks for no memory. */
bindingclay_answer bindingclay_taken(bindingclay clay, uint64_t number);

/* Ends a call that waits, as a signal does (read; write; open; poll). The answer is EINTR, or the count if it is a write that took bytes.
 * If no call of this number waits, the answer is BINDINGCLAY_NO_CALL. Asks for no memory. */
bindingclay_answer bindingclay_interrupt(bindingclay clay, uint64_t number);

/* Tells whose call waits under a number. Value: the pid of the process that began it. If no call of this number waits, the answer is
 * BINDINGCLAY_NO_CALL. Asks for no memory. */
bindingclay_answer bindingclay_owner(bindingclay clay, uint64_t number);

/* ---- Pipes and names ---- */

/* Makes a pipe (pipe; pipe2(2)) on the two least free descriptors, with O_NONBLOCK on both if nonblock is true. If it is done, they are
 * written to *ends. Fails with EMFILE if fewer than two descriptors are free, and with ENFILE if the limit descriptions_max allows fewer
 * than two more open file descriptions. */
bindingclay_answer bindingclay_pipe(bindingclay clay, uint32_t pid, bool nonblock, bindingclay_ends *ends);

/* Does what bindingclay_pipe does, with O_NONBLOCK of fcntl.h and BINDINGCLAY_O_DIRECT as flags (pipe2(2)). O_NONBLOCK is set on both ends.
 * BINDINGCLAY_O_DIRECT makes a packet pipe. If it is done, the ends are written to *ends. Errors:
 * - EINVAL, before all else, and before BINDINGCLAY_NO_PROCESS: flags has another flag.
 * - EMFILE: fewer than two descriptors are free.
 * - ENFILE: the limit descriptions_max allows fewer than two more open file descriptions.
 *
 * Packet pipes (pipe(2), O_DIRECT). A packet pipe holds packets of 1 to 4,096 bytes, and no two of them become one.
 *
 * - Places. A packet takes 4,096 bytes of the capacity and of memory, even if it has one byte. So 16 packets of one byte fill a new pipe,
 *   and take 64 KiB. The pipe has capacity / 4,096 places, and those that no packet takes are free.
 * - Write. At most 4,096 bytes make one packet, and no bytes make none. More bytes are split into packets of 4,096 bytes and a last one of
 *   those that are left. A write of one packet needs a free place. With O_NONBLOCK a longer write puts in as many packets as there are free
 *   places, and answers their bytes. If no place is free, it fails with EAGAIN. Without O_NONBLOCK a write waits until all its packets went
 *   in. EBADF and EPIPE are as in bindingclay_write.
 * - Read. A read takes the first packet, and gives as many of its bytes as it asked for. The rest of that packet is lost. It never gives
 *   bytes of two packets. A read of no bytes takes nothing. At the end of the file, after the last packet, it answers 0.
 * - Resume. Of a read that waits, bindingclay_resume gives one packet. Room for what the read asked for, or for 4,096 bytes, is always
 *   enough. If the room is too small, BINDINGCLAY_SHORT tells how many bytes the read would give, and the packet stays.
 * - Poll. POLLIN is told while a packet is held, and POLLOUT while a place is free.
 * - bindingclay_set_pipe_sz fails with EBUSY if the new capacity has fewer places than the pipe holds packets.
 * - bindingclay_splice and bindingclay_tee fail with EINVAL if either side is a packet pipe.
 * - bindingclay_get_fl tells BINDINGCLAY_O_DIRECT of the write end, and not of the read end. bindingclay_set_fl neither sets nor clears it.
 *   bindingclay_open_name ignores it, so no FIFO is a packet pipe. */
bindingclay_answer bindingclay_pipe2(bindingclay clay, uint32_t pid, uint32_t flags, bindingclay_ends *ends);

/* Makes a FIFO under a name (mkfifo). A name is 1 to 255 bytes, at name, without a NUL at its end. Errors:
 * - ENOENT: the name is empty.
 * - ENAMETOOLONG: the name is longer than 255 bytes.
 * - EINVAL: a slash or a NUL is in the name.
 * - EEXIST: the name is taken.
 * - ENOSPC: there are as many names as the limits allow. */
bindingclay_answer bindingclay_mkfifo(bindingclay clay, uint32_t pid, const uint8_t *name, size_t size);

/* Opens a name (open; fifo(7)). Value: the least free descriptor. flags: O_RDONLY, O_WRONLY or O_RDWR, with O_CREAT, O_EXCL, O_TRUNC,
 * O_APPEND and O_NONBLOCK of fcntl.h. Other flags have no effect. Errors:
 * - EINVAL, before all else: flags has none of these modes.
 * - ENOENT, ENAMETOOLONG, EINVAL: the name is as bindingclay_mkfifo refuses it.
 * - EEXIST: the name is taken, and flags has O_CREAT and O_EXCL.
 * - ENOENT: the name is free, and flags lacks O_CREAT.
 * - EMFILE: no descriptor is free.
 * - ENFILE: there are as many open file descriptions as the limit descriptions_max allows.
 * - ENOSPC: a file would be made, and there are as many names as the limits allow.
 * - ENXIO: the name is that of a FIFO without a reader, and flags has O_WRONLY and O_NONBLOCK.
 *
 * Without O_NONBLOCK, the open of one end of a FIFO waits for the other end. */
bindingclay_answer bindingclay_open_name(
    bindingclay clay, uint32_t pid, const uint8_t *name, size_t size, uint32_t flags);

/* Removes a name (unlink). What it stood for stays while it is open. Errors:
 * - ENOENT, ENAMETOOLONG, EINVAL: the name is as bindingclay_mkfifo refuses it.
 * - ENOENT: the name is free. */
bindingclay_answer bindingclay_unlink(bindingclay clay, uint32_t pid, const uint8_t *name, size_t size);

/* Copies the bytes of the regular file that a name stands for to the first of the room bytes at into. It needs no process, and changes
 * nothing in the kernel. Value: how many bytes the file has. If room is less, the answer is BINDINGCLAY_SHORT, and nothing is copied. Fails
 * with ENOENT if the name stands for no regular file. It takes memory for as many bytes as the file has, and gives it back. */
bindingclay_answer bindingclay_file_bytes(
    bindingclay clay, const uint8_t *name, size_t size, uint8_t *into, size_t room);

/* ---- Bytes ---- */

/* Reads at most size bytes (read), into the first of the bytes at into. The others there stay as they are. Value: how many; 0 at the end.
 * In this order:
 * - EINVAL, before all else: size is above BINDINGCLAY_MOST_SIZE.
 * - EBADF: fd isn't open for reading.
 * - 0: size is 0.
 * - EAGAIN, or a wait: the pipe is empty and has a writer. With O_NONBLOCK the read fails with EAGAIN. Without it the read waits.
 *
 * Of a packet pipe it reads one packet, as bindingclay_pipe2 tells. Asks for memory only if it waits. bindingclay_resume gives the bytes
 * then, so into is free at once. */
bindingclay_answer bindingclay_read(bindingclay clay, uint32_t pid, int32_t fd, uint8_t *into, size_t size);

/* Writes size bytes (write). Value: how many went in. In this order:
 * - EINVAL, before all else: size is above BINDINGCLAY_MOST_SIZE.
 * - EBADF: fd isn't open for writing.
 * - 0: size is 0.
 * - EPIPE: the pipe has no reader.
 * - EAGAIN, or a wait: the pipe has too little room. With O_NONBLOCK the write fails with EAGAIN, except that of more than 4,096 bytes some
 *   go in if there is some room. Without O_NONBLOCK the write waits until all its bytes went in, and moved tells whether some went in at
 *   once.
 * - EFBIG: the file has no room.
 *
 * At most 4,096 bytes go into a pipe whole or not at all (pipe(7), PIPE_BUF). Into a packet pipe go whole packets, as bindingclay_pipe2
 * tells. */
bindingclay_answer bindingclay_write(bindingclay clay, uint32_t pid, int32_t fd, const uint8_t *bytes, size_t size);

/* Sets the offset of a regular file (lseek), from SEEK_SET, SEEK_CUR or SEEK_END of stdio.h. Value: the offset. Errors:
 * - EINVAL, before all else: whence is another number.
 * - EBADF: fd isn't open.
 * - ESPIPE: fd is open on a pipe.
 * - EINVAL: the offset would be below 0.
 * - EOVERFLOW: the offset would be above 9,223,372,036,854,775,807.
 *
 * Asks for no memory. */
bindingclay_answer bindingclay_lseek(bindingclay clay, uint32_t pid, int32_t fd, int64_t offset, int32_t whence);

/* Does what bindingclay_splice does, with its offsets by value. */
bindingclay_answer bindingclay_splice_at(bindingclay clay, uint32_t pid, int32_t from, bool has_from_offset,
    uint64_t from_offset, int32_t to, bool has_to_offset, uint64_t to_offset, uint32_t len, uint32_t flags);

/* What calls of bindingclay_splice_at go through, as those below do that have a size. */
static inline bindingclay_answer bindingclay_c_splice_at(bindingclay clay, uint32_t pid, int32_t from, bool has_from_offset,
    uint64_t from_offset, int32_t to, bool has_to_offset, uint64_t to_offset, uint32_t len, uint32_t flags)
{
    if (!bindingclay_c_is_size(len))
        return bindingclay_c_no_size();
    return bindingclay_splice_at(
        clay, pid, from, has_from_offset, from_offset, to, has_to_offset, to_offset, len, flags);
}

/* Moves at most len bytes from one descriptor to another (splice(2)). At least one of them is a pipe. Value: how many; 0 at the end of the
 * source. An offset is one in a regular file. If it is null, the file's own offset is used. If one is given, the file's own offset stays as
 * it is, and so do *from_offset and *to_offset. flags: SPLICE_F_NONBLOCK. SPLICE_F_MOVE, SPLICE_F_MORE and SPLICE_F_GIFT have no effect. In
 * this order:
 * - EINVAL, before all else: flags has another flag, or len is above BINDINGCLAY_MOST_SIZE.
 * - 0: len is 0, whatever the descriptors are.
 * - EBADF: the source isn't open for reading, or the target isn't open for writing.
 * - ESPIPE: an offset is given for a pipe.
 * - EINVAL: an offset is above 9,223,372,036,854,775,807, neither is a pipe, or both are the same pipe.
 * - EINVAL: one of them is a packet pipe, or the target is a file with O_APPEND.
 * - EPIPE: the target is a pipe without a reader.
 * - 0: the source is at its end.
 * - EAGAIN, or a wait: the source is empty and may get bytes, or the target is a pipe without room. With SPLICE_F_NONBLOCK, or with
 *   O_NONBLOCK on one of the pipes, the splice fails with EAGAIN. Without these it waits.
 * - EFBIG: the target is a file with no room. */
static inline bindingclay_answer bindingclay_splice(bindingclay clay, uint32_t pid, int32_t from,
    const uint64_t *from_offset, int32_t to, const uint64_t *to_offset, uint32_t len, uint32_t flags)
{
    return bindingclay_c_splice_at(clay, pid, from, from_offset != NULL, from_offset != NULL ? *from_offset : 0, to,
        to_offset != NULL, to_offset != NULL ? *to_offset : 0, len, flags);
}

/* Copies at most len bytes from the front of one pipe to another, and leaves them in the first (tee(2)). Value: how many; 0 if the source
 * is empty and has no writer. flags, and a len of 0 or above BINDINGCLAY_MOST_SIZE, are as in bindingclay_splice. Then, in this order:
 * - EBADF: the source isn't open for reading, or the target isn't open for writing.
 * - EINVAL: they aren't two pipes, both are the same one, or one of them is a packet pipe.
 * - EPIPE: the target has no reader.
 * - EAGAIN, or a wait: as in bindingclay_splice. */
bindingclay_answer bindingclay_tee(
    bindingclay clay, uint32_t pid, int32_t from, int32_t to, uint32_t len, uint32_t flags);

/* Tells for each entry which of its events hold of its descriptor, of POLLIN and POLLOUT of poll.h (poll). It tells POLLERR, POLLHUP and
 * POLLNVAL unasked. Value: how many entries have a revents that isn't 0. If the poll is done, it writes all revents, and otherwise none. An
 * entry with a negative fd is passed over. If wait is true and nothing is found, it waits, and only then asks for memory. Fails with EINVAL
 * if there are more entries than the limit descriptors_max, and more than 256. */
bindingclay_answer bindingclay_poll(
    bindingclay clay, uint32_t pid, bindingclay_pollfd *entries, size_t count, bool wait);

/* ---- Descriptors ---- */

/* Makes the least free descriptor name what fd names too (dup). Value: that descriptor. Fails with EBADF if fd isn't open, and with EMFILE
 * if none is free. */
bindingclay_answer bindingclay_dup(bindingclay clay, uint32_t pid, int32_t fd);

/* Makes target name what fd names too (dup2). What target named is closed. If that is the same description, nothing changes. Value: target.
 * Fails with EBADF if fd isn't open, or target is below 0 or not below the limit descriptors_max. If target is open, asks for no memory. */
bindingclay_answer bindingclay_dup2(bindingclay clay, uint32_t pid, int32_t fd, int32_t target);

/* Makes the least free descriptor from least on name what fd names too (fcntl, F_DUPFD). Value: that descriptor. Fails with EBADF if fd
 * isn't open, with EINVAL if least is below 0 or not below the limit descriptors_max, and with EMFILE if none is free. */
bindingclay_answer bindingclay_dup_fd(bindingclay clay, uint32_t pid, int32_t fd, int32_t least);

/* Closes a descriptor (close). Fails with EBADF if it isn't open. Asks for no memory. */
bindingclay_answer bindingclay_close(bindingclay clay, uint32_t pid, int32_t fd);

/* Tells the mode and the flags (fcntl, F_GETFL). Value: O_RDONLY, O_WRONLY or O_RDWR, with O_APPEND, O_NONBLOCK and BINDINGCLAY_O_DIRECT if
 * they are set. Fails with EBADF if fd isn't open. Asks for no memory. */
bindingclay_answer bindingclay_get_fl(bindingclay clay, uint32_t pid, int32_t fd);

/* Sets O_APPEND and O_NONBLOCK as flags has them (fcntl, F_SETFL). Other flags have no effect. Fails with EBADF if fd isn't open. Asks for
 * no memory. */
bindingclay_answer bindingclay_set_fl(bindingclay clay, uint32_t pid, int32_t fd, uint32_t flags);

/* Tells how many bytes a pipe can hold (fcntl(2), F_GETPIPE_SZ). Fails with EBADF if fd isn't open on a pipe. Asks for no memory. */
bindingclay_answer bindingclay_get_pipe_sz(bindingclay clay, uint32_t pid, int32_t fd);

/* Sets how many bytes a pipe can hold: the least power of two from 4,096 on that isn't below size (fcntl(2), F_SETPIPE_SZ). Value: that
 * number. Errors:
 * - EBADF: fd isn't open on a pipe.
 * - EPERM: size is above 1,048,576, or is rounded up to more than the limit capacity.
 * - EBUSY: the pipe holds more bytes than that number. A packet counts as 4,096 bytes, however few it has. */
bindingclay_answer bindingclay_set_pipe_sz(bindingclay clay, uint32_t pid, int32_t fd, uint32_t size);

/* ---- What is there ----
 *
 * These calls tell what a kernel has. They make no step, change nothing, and ask for no memory. */

/* What a descriptor or a name stands for: the kind of bindingclay_node_facts. */
enum bindingclay_node_kind {
    /* A pipe that is a byte queue, with a name or without. */
    BINDINGCLAY_PIPE = 1,
    /* A packet pipe. */
    BINDINGCLAY_PACKET_PIPE = 2,
    /* A regular file. */
    BINDINGCLAY_FILE = 3
};

/* What is told of a pipe or a file. */
typedef struct {
    /* Its key, as st_ino of fstat is one. Two descriptors or names have the same kind and the same key exactly if they stand for the same
     * pipe or file. A pipe or a file keeps its key as long as it lives. Then another one may get that key. */
    uint64_t key;
    /* How many bytes a pipe holds, or how many a file has, as st_size of fstat. */
    uint64_t size;
    /* A number of enum bindingclay_node_kind. */
    uint32_t kind;
} bindingclay_node_facts;

/* What a call is that waits: the kind of bindingclay_waiting_facts. */
enum bindingclay_call_kind {
    BINDINGCLAY_READ = 1,
    BINDINGCLAY_WRITE = 2,
    /* The open of a FIFO. */
    BINDINGCLAY_OPEN = 3,
    BINDINGCLAY_SPLICE = 4,
    BINDINGCLAY_TEE = 5,
    BINDINGCLAY_POLL = 6
};

/* What is told of a call that waits. Its descriptors are those that it began with. By now they may be closed, or name something else: the
 * call goes on with what they named then. */
typedef struct {
    /* A number of enum bindingclay_call_kind. */
    uint32_t kind;
    /* The process that began it. */
    uint32_t pid;
    /* The descriptor of a read or a write, that from which a splice or a tee takes, or that of the first entry of a poll, which may be below
     * 0. Of an open, and of a poll without entries, it is -1. */
    int32_t first;
    /* The descriptor to which a splice or a tee gives. Of any other call it is -1. */
    int32_t second;
} bindingclay_waiting_facts;

/* What a process holds. */
typedef struct {
    /* How many of its descriptors are open. */
    uint64_t descriptors;
    /* How many of its calls wait. */
    uint64_t waiting_calls;
} bindingclay_process;

/* In how many segments, each of 4,096 bytes of memory, a kernel keeps the bytes of its pipes and files. */
typedef struct {
    /* Those in which bytes are. If there is no process and no name, there are none. */
    uint64_t used;
    /* Those that are kept for further bytes: at most as many as fit spare_max of the limits. */
    uint64_t spare;
} bindingclay_segment_use;

/* Tells how many bytes a pipe holds, by either end (pipe(7), FIONREAD). Value: how many; of a packet pipe, the bytes of all its packets. Fails
 * with EBADF if fd isn't open on a pipe. */
bindingclay_answer bindingclay_held(bindingclay clay, uint32_t pid, int32_t fd);

/* Tells what a descriptor stands for (fstat), and writes it to *facts if it is done. Fails with EBADF if fd isn't open. */
bindingclay_answer bindingclay_fd_facts(bindingclay clay, uint32_t pid, int32_t fd, bindingclay_node_facts *facts);

/* Tells what a name stands for (stat), and writes it to *facts if it is done. It opens nothing, and needs no process. Fails with ENOENT if the
 * name stands for nothing. */
bindingclay_answer bindingclay_name_facts(
    bindingclay clay, const uint8_t *name, size_t size, bindingclay_node_facts *facts);

/* Tells of the call that waits under a number, and writes it to *facts if it is done. If no call of this number waits, the answer is
 * BINDINGCLAY_NO_CALL. */
bindingclay_answer bindingclay_call_facts(bindingclay clay, uint64_t number, bindingclay_waiting_facts *facts);

/* Tells what a process holds of what the limits descriptors_max and waiting_of_each bound, and writes it to *process if it is done. If there is no
 * process of this pid, the answer is BINDINGCLAY_NO_PROCESS. */
bindingclay_answer bindingclay_process_facts(bindingclay clay, uint32_t pid, bindingclay_process *process);

/* Tells in how many segments a kernel keeps bytes, and writes it to *segments. */
void bindingclay_stats(bindingclay clay, bindingclay_segment_use *segments);

/* ---- Records ----
 *
 * A record tells the steps of a kernel and what each answered, in the order in which they were made. It is a script of version 2, which
 * piperun --check FILE runs again: each answer then has to be the recorded one. Its first lines name the version and the kernel's limits.
 * Behind them each step has two lines, and the second is a comment with its answer. What a call writes, and what a read gives, is in it.
 * docs/RULES.md of the project has its form.
 *
 * A call that makes no step leaves nothing in the record. Such are the calls under "What is there", a call that is refused before all else,
 * and one that answers BINDINGCLAY_NO_MEMORY or BINDINGCLAY_SHORT. The record is held in the kernel's memory, within its limit, until it
 * is handed out. So while steps are recorded, a call that makes one may answer BINDINGCLAY_NO_MEMORY, also one that asks for no memory
 * otherwise. It has changed nothing then. Hand out the record, and make the call again. Once all of it is handed out, the next 64 calls of
 * bindingclay_close, bindingclay_exit and bindingclay_interrupt ask for no memory. A read asks for memory for a copy of the bytes that it
 * gives and for its two lines, and for no more if there is room for more bytes. */

/* Begins to record the steps of a kernel, or ends that if on is false, which drops what wasn't handed out. Fails with EINVAL to begin if a
 * process was started or a recording begun before, as a record has all steps of its kernel. To end it never fails, and asks for no
 * memory. */
bindingclay_answer bindingclay_record(bindingclay clay, bool on);

/* Hands out the record: writes the first bytes that weren't handed out yet to the first of the size bytes at into. Value: how many. It is 0
 * only if none is left, or size is 0; so call it until it is 0. A line may be handed out in parts. Bytes that were handed out are kept no
 * longer. No limit on the memory of the kernel makes it fail. Fails with EINVAL if no recording goes on. */
bindingclay_answer bindingclay_recorded(bindingclay clay, uint8_t *into, size_t size);

/* ---- Buffers of no bytes, and sizes that are none ---- */

/* The functions of the library take no null pointer. So in C and C++ the calls with a buffer go through the functions below. They put
 * another pointer in the place of one to nothing. What such a pointer points to is neither read nor written. And they refuse a size that is
 * above BINDINGCLAY_MOST_SIZE. */
static inline const uint8_t *bindingclay_c_bytes(const uint8_t *bytes, size_t size)
{
    static const uint8_t nothing = 0;
    return size == 0 ? &nothing : bytes;
}

static inline uint8_t *bindingclay_c_room(uint8_t *into, size_t size)
{
    static uint8_t nothing;
    return size == 0 ? &nothing : into;
}

static inline bindingclay_pollfd *bindingclay_c_entries(bindingclay_pollfd *entries, size_t count)
{
    static bindingclay_pollfd nothing;
    return count == 0 ? &nothing : entries;
}

static inline bindingclay_answer bindingclay_c_resume(bindingclay clay, uint64_t number, uint8_t *into, size_t size)
{
    if (!bindingclay_c_is_size(size))
        return bindingclay_c_no_size();
    return bindingclay_resume(clay, number, bindingclay_c_room(into, size), size);
}

static inline bindingclay_answer bindingclay_c_resume_poll(
    bindingclay clay, uint64_t number, bindingclay_pollfd *entries, size_t count)
{
    if (!bindingclay_c_is_size(count))
        return bindingclay_c_no_size();
    return bindingclay_resume_poll(clay, number, bindingclay_c_entries(entries, count), count);
}

static inline bindingclay_answer bindingclay_c_mkfifo(bindingclay clay, uint32_t pid, const uint8_t *name, size_t size)
{
    if (!bindingclay_c_is_size(size))
        return bindingclay_c_no_size();
    return bindingclay_mkfifo(clay, pid, bindingclay_c_bytes(name, size), size);
}

static inline bindingclay_answer bindingclay_c_open_name(
    bindingclay clay, uint32_t pid, const uint8_t *name, size_t size, uint32_t flags)
{
    if (!bindingclay_c_is_size(size))
        return bindingclay_c_no_size();
    return bindingclay_open_name(clay, pid, bindingclay_c_bytes(name, size), size, flags);
}

static inline bindingclay_answer bindingclay_c_unlink(bindingclay clay, uint32_t pid, const uint8_t *name, size_t size)
{
    if (!bindingclay_c_is_size(size))
        return bindingclay_c_no_size();
    return bindingclay_unlink(clay, pid, bindingclay_c_bytes(name, size), size);
}

static inline bindingclay_answer bindingclay_c_file_bytes(
    bindingclay clay, const uint8_t *name, size_t size, uint8_t *into, size_t room)
{
    if (!bindingclay_c_is_size(size) || !bindingclay_c_is_size(room))
        return bindingclay_c_no_size();
    return bindingclay_file_bytes(clay, bindingclay_c_bytes(name, size), size, bindingclay_c_room(into, room), room);
}

static inline bindingclay_answer bindingclay_c_name_facts(
    bindingclay clay, const uint8_t *name, size_t size, bindingclay_node_facts *facts)
{
    if (!bindingclay_c_is_size(size))
        return bindingclay_c_no_size();
    return bindingclay_name_facts(clay, bindingclay_c_bytes(name, size), size, facts);
}

static inline bindingclay_answer bindingclay_c_read(
    bindingclay clay, uint32_t pid, int32_t fd, uint8_t *into, size_t size)
{
    if (!bindingclay_c_is_size(size))
        return bindingclay_c_no_size();
    return bindingclay_read(clay, pid, fd, bindingclay_c_room(into, size), size);
}

static inline bindingclay_answer bindingclay_c_write(
    bindingclay clay, uint32_t pid, int32_t fd, const uint8_t *bytes, size_t size)
{
    if (!bindingclay_c_is_size(size))
        return bindingclay_c_no_size();
    return bindingclay_write(clay, pid, fd, bindingclay_c_bytes(bytes, size), size);
}

static inline bindingclay_answer bindingclay_c_tee(
    bindingclay clay, uint32_t pid, int32_t from, int32_t to, uint32_t len, uint32_t flags)
{
    if (!bindingclay_c_is_size(len))
        return bindingclay_c_no_size();
    return bindingclay_tee(clay, pid, from, to, len, flags);
}

static inline bindingclay_answer bindingclay_c_poll(
    bindingclay clay, uint32_t pid, bindingclay_pollfd *entries, size_t count, bool wait)
{
    if (!bindingclay_c_is_size(count))
        return bindingclay_c_no_size();
    return bindingclay_poll(clay, pid, bindingclay_c_entries(entries, count), count, wait);
}

static inline bindingclay_answer bindingclay_c_recorded(bindingclay clay, uint8_t *into, size_t size)
{
    if (!bindingclay_c_is_size(size))
        return bindingclay_c_no_size();
    return bindingclay_recorded(clay, bindingclay_c_room(into, size), size);
}

#define bindingclay_resume bindingclay_c_resume
#define bindingclay_resume_poll bindingclay_c_resume_poll
#define bindingclay_mkfifo bindingclay_c_mkfifo
#define bindingclay_open_name bindingclay_c_open_name
#define bindingclay_unlink bindingclay_c_unlink
#define bindingclay_file_bytes bindingclay_c_file_bytes
#define bindingclay_name_facts bindingclay_c_name_facts
#define bindingclay_read bindingclay_c_read
#define bindingclay_write bindingclay_c_write
#define bindingclay_splice_at bindingclay_c_splice_at
#define bindingclay_tee bindingclay_c_tee
#define bindingclay_poll bindingclay_c_poll
#define bindingclay_recorded bindingclay_c_recorded

/* ---- Calls that wait, of one process alone ----
 *
 * These do what the functions without _of do. They are for a host that passes on a number that a guest gave it. If no call of this number
 * waits, or process pid didn't begin it, they answer BINDINGCLAY_NO_CALL, and nothing changed. */

static inline bool bindingclay_c_is_of(bindingclay clay, uint32_t pid, uint64_t number)
{
    bindingclay_answer owner = bindingclay_owner(clay, number);
    return owner.kind == BINDINGCLAY_DONE && owner.value == pid;
}

static inline bindingclay_answer bindingclay_c_no_call(void)
{
    bindingclay_answer none = { 0, 0, BINDINGCLAY_NO_CALL, false, false };
    return none;
}

static inline bindingclay_answer bindingclay_resume_of(
    bindingclay clay, uint32_t pid, uint64_t number, uint8_t *into, size_t size)
{
    return bindingclay_c_is_of(clay, pid, number) ? bindingclay_resume(clay, number, into, size) : bindingclay_c_no_call();
}

static inline bindingclay_answer bindingclay_resume_poll_of(
    bindingclay clay, uint32_t pid, uint64_t number, bindingclay_pollfd *entries, size_t count)
{
    return bindingclay_c_is_of(clay, pid, number) ? bindingclay_resume_poll(clay, number, entries, count) : bindingclay_c_no_call();
}

static inline bindingclay_answer bindingclay_interrupt_of(bindingclay clay, uint32_t pid, uint64_t number)
{
    return bindingclay_c_is_of(clay, pid, number) ? bindingclay_interrupt(clay, number) : bindingclay_c_no_call();
}

#ifdef __cplusplus
}
#endif

#endif

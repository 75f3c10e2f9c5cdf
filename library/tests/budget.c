/* A kernel within a budget, and beside it one without: a guest that makes calls at random gets the same answers from both, but for want of
 * memory. What the first one holds is counted here too, byte for byte. Link with -Wl,--wrap=malloc,--wrap=realloc,--wrap=free.
 *
 *   budget CALLS    so many calls in each budget */
#define _POSIX_C_SOURCE 200809L
#include "check.h"

#include <fcntl.h>
#include <poll.h>
#include <time.h>

void *__real_malloc(size_t size);
void *__real_realloc(void *block, size_t size);
void __real_free(void *block);

/* ---- Memory, counted as it is asked for ---- */

/* Whose request it is: the program's own, or that of a kernel. */
enum owner { PROGRAM = 0, FIRST, SECOND, OWNERS };

static enum owner asking = PROGRAM;

/* The bytes that each has, and the most that each had. */
static uint64_t held_by[OWNERS];
static uint64_t peak_of[OWNERS];

/* What stands before each block. */
struct label {
    size_t size;
    enum owner owner;
};

enum { LABEL = 32 };

static void count(enum owner owner, size_t more)
{
    held_by[owner] += more;
    if (peak_of[owner] < held_by[owner])
        peak_of[owner] = held_by[owner];
}

static void *labelled(char *start, size_t size, enum owner owner)
{
    if (start == NULL)
        return NULL;
    *(struct label *)(void *)start = (struct label){ size, owner };
    count(owner, size);
    return start + LABEL;
}

static char *start_of(void *block)
{
    return (char *)block - LABEL;
}

void *__wrap_malloc(size_t size)
{
    return labelled(__real_malloc(size + LABEL), size, asking);
}

/* The bytes of one block count, also while it moves. */
void *__wrap_realloc(void *block, size_t size)
{
    if (block == NULL)
        return __wrap_malloc(size);
    struct label was = *(struct label *)(void *)start_of(block);
    char *moved = __real_realloc(start_of(block), size + LABEL);
    if (moved == NULL)
        return NULL;
    held_by[was.owner] -= was.size;
    return labelled(moved, size, was.owner);
}

void __wrap_free(void *block)
{
    if (block == NULL)
        return;
    struct label was = *(struct label *)(void *)start_of(block);
    held_by[was.owner] -= was.size;
    __real_free(start_of(block));
}

/* A kernel of one of the owners, and what it takes before its first call, which is no part of its budget. */
struct kernel {
    bindingclay clay;
    enum owner owner;
    uint64_t before;
};

static struct kernel kernel_of(enum owner owner, uint64_t memory)
{
    bindingclay_limits limits = BINDINGCLAY_LIMITS;
    limits.memory = memory;
    struct kernel made = { { NULL }, owner, 0 };
    held_by[owner] = 0;
    asking = owner;
    bool open = bindingclay_open_within(&limits, &made.clay.kernel);
    asking = PROGRAM;
    if (!open) {
        printf("bindingclay_open_within: false\n");
        exit(1);
    }
    made.before = held_by[owner];
    peak_of[owner] = made.before;
    return made;
}

static void free_kernel(struct kernel kernel)
{
    bindingclay_free(kernel.clay);
    HOLDS(held_by[kernel.owner] == 0);
}

/* The bytes of the block that the library's heap gives where none are asked for. A budget counts what is asked for, and a splice asks so once. */
enum { EMPTY_BLOCK = 8 };

/* What it says that it takes is what it has, and no more than it may. */
static bool is_within(struct kernel kernel)
{
    bindingclay_memory_use use = bindingclay_memory(kernel.clay);
    uint64_t peak = peak_of[kernel.owner] - kernel.before;
    return use.held == held_by[kernel.owner] - kernel.before && use.peak <= peak && peak <= use.peak + EMPTY_BLOCK
        && use.held <= use.peak && use.peak <= use.most && use.spare <= use.held;
}

/* ---- A guest ---- */

enum what {
    START, FORK, EXIT, PIPE, MKFIFO, OPEN, UNLINK, READ, WRITE, SPLICE, TEE, POLL, DUP, DUP2, CLOSE, LSEEK, SET_FL, SET_SZ, RESUME,
    INTERRUPT, FILE_BYTES, KINDS
};

struct call {
    enum what what;
    uint32_t pid;
    int32_t fd;
    int32_t to;
    uint32_t size;
    uint32_t flags;
    uint64_t number;
    uint8_t name[8];
    size_t name_size;
};

enum { ROOM = 1 << 17 };

/* What a call leaves beside its answer. */
struct left {
    bindingclay_ends ends;
    bindingclay_pollfd entries[4];
    uint8_t into[ROOM];
};

static uint8_t pattern[ROOM];
static struct left by_first;
static struct left by_second;

static uint64_t seed;

static uint32_t random_below(uint32_t bound)
{
    seed ^= seed << 13;
    seed ^= seed >> 7;
    seed ^= seed << 17;
    return (uint32_t)((seed >> 20) % bound);
}

/* Mostly a few bytes or a page, now and then many. */
static uint32_t random_size(void)
{
    static const uint32_t most[] = { 2, 20, 200, 4096, 4097, 9000, 70000, ROOM };
    return random_below(most[random_below(8)]);
}

static enum what random_kind(void)
{
    /* so many of each in 100 */
    static const uint8_t weights[KINDS] = {
        [START] = 2, [FORK] = 2, [EXIT] = 1, [PIPE] = 5, [MKFIFO] = 3, [OPEN] = 9, [UNLINK] = 3, [READ] = 12, [WRITE] = 18, [SPLICE] = 10,
        [TEE] = 3, [POLL] = 4, [DUP] = 2, [DUP2] = 1, [CLOSE] = 3, [LSEEK] = 4, [SET_FL] = 2, [SET_SZ] = 2, [RESUME] = 10, [INTERRUPT] = 3,
        [FILE_BYTES] = 1,
    };
    uint32_t at = random_below(100);
    for (int kind = 0; kind < KINDS; kind++) {
        if (at < weights[kind])
            return (enum what)kind;
        at -= weights[kind];
    }
    return READ;
}

/* The numbers of calls that waited, of which some don't any more. */
static uint64_t numbers[64];
static uint32_t next_number;

static struct call random_call(void)
{
    static const uint32_t modes[] = { O_RDONLY, O_WRONLY, O_RDWR, O_RDWR };
    static const uint32_t bits[] = { 0, O_CREAT, O_CREAT, O_CREAT | O_EXCL, O_CREAT | O_APPEND, O_TRUNC, O_NONBLOCK, O_NONBLOCK | O_CREAT };
    struct call call = { .what = random_kind(), .pid = random_below(6), .fd = (int32_t)random_below(14) - 1, .to = (int32_t)random_below(14) - 1,
        .size = random_size(), .flags = random_below(4) == 0 ? 2 : 0, .number = numbers[random_below(64)] };
    if (call.what == OPEN)
        call.flags = modes[random_below(4)] | bits[random_below(8)];
    uint32_t name = random_below(2) == 0 ? random_below(6) : random_below(100000);
    call.name_size = (size_t)snprintf((char *)call.name, sizeof call.name, "%" PRIu32, name);
    return call;
}

static bindingclay_answer moved(const struct call *call, bindingclay clay)
{
    uint64_t offset = call->size;
    const uint64_t *of_file = call->number % 2 == 0 ? &offset : NULL;
    if (call->what == TEE)
        return bindingclay_tee(clay, call->pid, call->fd, call->to, call->size, call->flags);
    return bindingclay_splice(clay, call->pid, call->fd, call->number % 3 == 0 ? of_file : NULL, call->to, of_file, call->size, call->flags);
}

static bindingclay_answer polled(const struct call *call, bindingclay clay, struct left *left)
{
    for (int i = 0; i < 4; i++)
        left->entries[i] = (bindingclay_pollfd){ call->fd + i, POLLIN | POLLOUT, 0 };
    return bindingclay_poll(clay, call->pid, left->entries, call->size % 5, call->flags != 0);
}

static bindingclay_answer made(const struct call *call, bindingclay clay, struct left *left)
{
    switch (call->what) {
    case START:
        return bindingclay_start(clay);
    case FORK:
        return bindingclay_fork(clay, call->pid);
    case EXIT:
        return bindingclay_exit(clay, call->pid);
    case PIPE:
        if (call->size % 3 == 0)
            return bindingclay_pipe2(clay, call->pid, BINDINGCLAY_O_DIRECT | (call->flags != 0 ? O_NONBLOCK : 0), &left->ends);
        return bindingclay_pipe(clay, call->pid, call->flags != 0, &left->ends);
    case MKFIFO:
        return bindingclay_mkfifo(clay, call->pid, call->name, call->name_size);
    case OPEN:
        return bindingclay_open_name(clay, call->pid, call->name, call->name_size, call->flags);
    case UNLINK:
        return bindingclay_unlink(clay, call->pid, call->name, call->name_size);
    case READ:
        return bindingclay_read(clay, call->pid, call->fd, left->into, call->size);
    case WRITE:
        return bindingclay_write(clay, call->pid, call->fd, pattern, call->size);
    case SPLICE:
    case TEE:
        return moved(call, clay);
    case POLL:
        return polled(call, clay, left);
    case DUP:
        return bindingclay_dup(clay, call->pid, call->fd);
    case DUP2:
        return bindingclay_dup2(clay, call->pid, call->fd, call->to);
    case CLOSE:
        return bindingclay_close(clay, call->pid, call->fd);
    case LSEEK:
        return bindingclay_lseek(clay, call->pid, call->fd, call->size, (int32_t)(call->number % 3));
    case SET_FL:
        return bindingclay_set_fl(clay, call->pid, call->fd, call->flags != 0 ? O_NONBLOCK : 0);
    case SET_SZ:
        return bindingclay_set_pipe_sz(clay, call->pid, call->fd, call->size * 8);
    case RESUME:
        return bindingclay_resume(clay, call->number, left->into, ROOM);
    case INTERRUPT:
        return bindingclay_interrupt(clay, call->number);
    default:
        return bindingclay_file_bytes(clay, call->name, call->name_size, left->into, ROOM);
    }
}

static bindingclay_answer made_by(struct kernel kernel, const struct call *call, struct left *left)
{
    asking = kernel.owner;
    bindingclay_answer answer = made(call, kernel.clay, left);
    asking = PROGRAM;
    return answer;
}

static bool is_same(bindingclay_answer a, bindingclay_answer b)
{
    return a.kind == b.kind && a.value == b.value && a.error == b.error && a.sigpipe == b.sigpipe && a.moved == b.moved
        && memcmp(&by_first, &by_second, sizeof by_first) == 0;
}

/* A call that found no memory left the caller's bytes alone. Made again it has what the kernel kept for further bytes. If it finds none either, it leaves
 * no more in the end. But each time calls that lack places get them, if there is memory for these now, of which there are at most eight. Then a call that
 * would wait does. */
static bindingclay_answer made_again(struct kernel within, const struct call *call)
{
    enum { WITHOUT_PLACES = 8 };
    HOLDS(memcmp(by_first.into, by_second.into, ROOM) == 0);
    bindingclay_answer answer = { .kind = BINDINGCLAY_NO_MEMORY };
    uint64_t held = 0;
    for (int i = 0; i <= WITHOUT_PLACES + 1 && answer.kind == BINDINGCLAY_NO_MEMORY; i++) {
        held = held_by[within.owner];
        answer = made_by(within, call, &by_first);
    }
    HOLDS(answer.kind != BINDINGCLAY_NO_MEMORY || held_by[within.owner] <= held);
    return answer;
}

/* One call of the guest. Whether it found no memory. */
static bool step(struct kernel within, struct kernel without)
{
    struct call call = random_call();
    bindingclay_answer answer = made_by(within, &call, &by_first);
    if (!is_within(within)) {
        HOLDS(is_within(within));
        printf("call of kind %d\n", call.what);
        exit(1);
    }
    if (answer.kind == BINDINGCLAY_NO_MEMORY)
        answer = made_again(within, &call);
    if (answer.kind == BINDINGCLAY_NO_MEMORY) {
        memcpy(&by_first, &by_second, sizeof by_first);
        return true;
    }
    if (answer.kind == BINDINGCLAY_PARKED)
        numbers[next_number++ % 64] = answer.value;
    if (!is_same(answer, made_by(without, &call, &by_second))) {
        HOLDS(!"the same answer");
        printf("call of kind %d\n", call.what);
        exit(1);
    }
    return false;
}

/* Ends all processes, and takes the names away. */
static void leave(struct kernel kernel)
{
    for (uint32_t pid = 1; pid <= 1024; pid++)
        bindingclay_exit(kernel.clay, pid);
    char name[8];
    asking = kernel.owner;
    DONE(bindingclay_start(kernel.clay), 1);
    for (uint32_t i = 0; i < 100000; i++)
        bindingclay_unlink(kernel.clay, 1, (const uint8_t *)name, (size_t)snprintf(name, sizeof name, "%" PRIu32, i));
    asking = PROGRAM;
    bindingclay_exit(kernel.clay, 1);
}

static void guest(uint64_t memory, long calls)
{
    struct kernel within = kernel_of(FIRST, memory);
    struct kernel without = kernel_of(SECOND, UINT64_MAX);
    seed = memory ^ 88172645463325252u;
    memset(numbers, 0, sizeof numbers);
    long none = 0;
    for (long i = 0; i < calls; i++)
        none += step(within, without);
    uint64_t peak = bindingclay_memory(within.clay).peak;
    printf("within %" PRIu64 " bytes: at most %" PRIu64 ", and %ld calls of %ld found none\n", memory, peak, none, calls);
    HOLDS(none > 0 || memory > 1 << 20 || calls < 100000);
    leave(within);
    HOLDS(is_within(within));
    bindingclay_memory_use left = bindingclay_memory(within.clay);
    HOLDS(left.held < peak || peak < 65536);
    free_kernel(within);
    free_kernel(without);
}

/* ---- Two guests ---- */

static double seconds(void)
{
    struct timespec now;
    clock_gettime(CLOCK_MONOTONIC, &now);
    return (double)now.tv_sec + (double)now.tv_nsec / 1e9;
}

/* How long so many writes and reads of a kernel take, beside each of which another one finds no memory. */
static double pairs(bindingclay clay, bindingclay_ends ends, bindingclay other, long count)
{
    uint8_t byte = 0;
    double spent = 0;
    for (long i = 0; i < count; i++) {
        OTHER(bindingclay_write(other, 1, 1, pattern, ROOM), BINDINGCLAY_NO_MEMORY);
        double start = seconds();
        for (int j = 0; j < 100; j++) {
            DONE(bindingclay_write(clay, 1, ends.write_end, pattern, 1), 1);
            DONE(bindingclay_read(clay, 1, ends.read_end, &byte, 1), 1);
        }
        spent += seconds() - start;
    }
    return spent;
}

/* One is at its limit. The other has all that it may have, as fast as alone, and counts its own bytes. */
static void two_guests(void)
{
    struct kernel full = kernel_of(FIRST, 65536);
    struct kernel other = kernel_of(SECOND, 65536);
    DONE(bindingclay_start(full.clay), 1);
    NEW_PIPE(full.clay, 1, false);
    OTHER(bindingclay_write(full.clay, 1, 1, pattern, ROOM), BINDINGCLAY_NO_MEMORY);
    DONE(bindingclay_start(other.clay), 1);
    bindingclay_ends ends = NEW_PIPE(other.clay, 1, true);
    DONE(bindingclay_write(other.clay, 1, ends.write_end, pattern, 32768), 32768);
    DONE(take(other.clay, 1, ends.read_end, 32768), 32768);
    bindingclay_memory_use use = bindingclay_memory(other.clay);
    double beside = pairs(other.clay, ends, full.clay, 200);
    HOLDS(bindingclay_memory(other.clay).peak == use.peak && bindingclay_memory(full.clay).held <= 65536);
    bindingclay_free(full.clay);
    full = kernel_of(FIRST, 0);
    double alone = seconds();
    uint8_t byte = 0;
    for (int i = 0; i < 20000; i++) {
        DONE(bindingclay_write(other.clay, 1, ends.write_end, pattern, 1), 1);
        DONE(bindingclay_read(other.clay, 1, ends.read_end, &byte, 1), 1);
    }
    alone = seconds() - alone;
    HOLDS(beside < 8 * alone + 0.05);
    OTHER(bindingclay_start(full.clay), BINDINGCLAY_NO_MEMORY);
    free_kernel(full);
    bindingclay_free(other.clay);
}

/* ---- Idle pipes ---- */

enum { MANY = 1000, PIPES_OF_ONE = 100, IDLE = 400 };

/* A thousand idle pipes take at most so many bytes each, also once they may hold 1,048,576 bytes. */
static void idle_pipes(void)
{
    struct kernel kernel = kernel_of(FIRST, UINT64_MAX);
    asking = kernel.owner;
    for (uint32_t pid = 1; pid <= MANY / PIPES_OF_ONE; pid++)
        DONE(bindingclay_start(kernel.clay), pid);
    uint64_t before = held_by[FIRST];
    for (uint32_t i = 0; i < MANY; i++) {
        uint32_t pid = 1 + i / PIPES_OF_ONE;
        bindingclay_ends ends = NEW_PIPE(kernel.clay, pid, false);
        DONE(bindingclay_set_pipe_sz(kernel.clay, pid, ends.write_end, 1048576), 1048576);
    }
    asking = PROGRAM;
    uint64_t each = (held_by[FIRST] - before) / MANY;
    HOLDS(is_within(kernel));
    printf("an idle pipe: %" PRIu64 " bytes\n", each);
    HOLDS(each <= IDLE);
    free_kernel(kernel);
}

int main(int argc, char **argv)
{
    long calls = argc > 1 ? atol(argv[1]) : 100000;
    for (size_t i = 0; i < ROOM; i++)
        pattern[i] = (uint8_t)(i * 7 + i / 251);
    for (uint64_t memory = 65536; memory <= 8388608; memory *= 2)
        guest(memory, calls);
    two_guests();
    idle_pipes();
    return end();
}

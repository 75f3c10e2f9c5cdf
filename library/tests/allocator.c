/* Memory from an allocator of the program: what it is told; requests that it refuses; kernels that keep an allocator each, in one thread and in
 * several, beside kernels of what is set; and a kernel in memory that processes of the host share. Nothing of the library's comes from malloc. Link
 * with libbindingclay_allocator.a. */
#define _GNU_SOURCE
#include "bindingclay_allocator.h"

#include "bindingclay_shared.h"
#include "check.h"
#include "counted.h"

#include <sys/mman.h>
#include <sys/wait.h>
#include <unistd.h>

/* An allocator whose blocks come from malloc, and what it was asked for. */
struct account {
    bindingclay_allocator allocator;
    long blocks;
    size_t bytes;
    /* How many requests are granted before one is refused; below 0, all are granted. */
    long granted;
    bool was_refused;
    /* Whether a block came back that isn't of this account, or with another size. The checks print and count, and are made by one thread alone. */
    bool was_wronged;
    /* How many requests there were. */
    long requests;
};

/* What is before a block, so that its address is a multiple of 16. */
struct label {
    _Alignas(16) struct account *account;
    size_t size;
};

static bool refuses(struct account *account)
{
    account->requests++;
    if (account->granted < 0 || account->granted-- > 0)
        return false;
    account->was_refused = true;
    return true;
}

static struct label *label_of(struct account *account, void *block, size_t size)
{
    struct label *label = (struct label *)block - 1;
    account->was_wronged = account->was_wronged || label->account != account || label->size != size;
    return label;
}

static void *labelled(struct account *account, struct label *label, size_t size)
{
    *label = (struct label){ account, size };
    return label + 1;
}

static void *allocate(void *context, size_t size)
{
    struct account *account = context;
    struct label *label = refuses(account) ? NULL : __real_malloc(sizeof *label + size);
    if (label == NULL)
        return NULL;
    account->blocks++;
    account->bytes += size;
    return labelled(account, label, size);
}

static void release(void *context, void *block, size_t size)
{
    struct account *account = context;
    struct label *label = label_of(account, block, size);
    account->blocks--;
    account->bytes -= size;
    __real_free(label);
}

static void *reallocate(void *context, void *block, size_t size, size_t new_size)
{
    struct account *account = context;
    struct label *label = label_of(account, block, size);
    if (new_size > size && refuses(account))
        return NULL;
    label = __real_realloc(label, sizeof *label + new_size);
    if (label == NULL)
        return NULL;
    account->bytes += new_size - size;
    return labelled(account, label, new_size);
}

static struct account new_account(bool has_reallocate)
{
    return (struct account){ .allocator = { allocate, release, has_reallocate ? reallocate : NULL, NULL }, .granted = -1 };
}

/* Whether all came back to an account. */
static bool is_settled(const struct account *account)
{
    return account->blocks == 0 && account->bytes == 0 && !account->was_wronged;
}

static void use(struct account *account)
{
    account->allocator.context = account;
    bindingclay_use_allocator(&account->allocator);
}

/* What is set while calls are made on kernels that keep their allocator. Nothing may be asked of it. */
static struct account astray;

static void use_astray(void)
{
    astray = new_account(true);
    use(&astray);
}

static void end_astray(void)
{
    HOLDS(bindingclay_use_allocator(NULL) == &astray.allocator);
    HOLDS(astray.requests == 0 && is_settled(&astray));
}

/* Opens a kernel that keeps an allocator, of which no other copy stays. */
static bool open_with(struct account *account, bindingclay *clay)
{
    bindingclay_allocator copy = account->allocator;
    copy.context = account;
    bool is_open = bindingclay_open_with(NULL, &copy, &clay->kernel);
    memset(&copy, UNTOUCHED, sizeof copy);
    return is_open;
}

/* How a kernel comes to its allocator. */
enum way { SET, KEPT };

static bool opened(enum way way, struct account *account, bindingclay *clay)
{
    if (way == KEPT)
        return open_with(account, clay);
    return bindingclay_open(1, BINDINGCLAY_MOST_FILE_BYTES, &clay->kernel);
}

static void begin(enum way way, struct account *account)
{
    if (way == KEPT)
        use_astray();
    else
        use(account);
}

static void end_way(enum way way)
{
    if (way == KEPT)
        end_astray();
    else
        bindingclay_use_allocator(NULL);
}

/* Makes a step again if it found no memory, and counts that. */
#define STEP(call) \
    do { \
        answer = (call); \
        refused += answer.kind == BINDINGCLAY_NO_MEMORY; \
    } while (answer.kind == BINDINGCLAY_NO_MEMORY)

/* Files, FIFOs, pipes and calls that wait, of which each step is made again if it finds no memory. Returns how many found none. */
static int talk(bindingclay clay)
{
    static uint8_t bytes[9000], into[9000];
    static const uint8_t name[] = "name", fifo[] = "fifo";
    bindingclay_answer answer;
    bindingclay_ends ends, others;
    bindingclay_pollfd entry = { 0, 1, 0 };
    int refused = 0;
    memset(bytes, 'b', sizeof bytes);
    STEP(bindingclay_start(clay));
    uint32_t pid = (uint32_t)answer.value;
    STEP(bindingclay_pipe(clay, pid, false, &ends));
    STEP(bindingclay_read(clay, pid, ends.read_end, into, sizeof into));
    HOLDS(answer.kind == BINDINGCLAY_PARKED);
    uint64_t call = answer.value;
    STEP(bindingclay_write(clay, pid, ends.write_end, bytes, sizeof bytes));
    HOLDS(answer.kind == BINDINGCLAY_DONE && answer.value == sizeof bytes);
    STEP(bindingclay_resume(clay, call, into, sizeof into));
    HOLDS(answer.kind == BINDINGCLAY_DONE && answer.value == sizeof bytes && memcmp(bytes, into, sizeof bytes) == 0);
    STEP(bindingclay_open_name(clay, pid, name, 4, 0102));
    HOLDS(answer.kind == BINDINGCLAY_DONE);
    int32_t file = (int32_t)answer.value;
    STEP(bindingclay_write(clay, pid, file, bytes, sizeof bytes));
    HOLDS(answer.kind == BINDINGCLAY_DONE && answer.value == sizeof bytes);
    STEP(bindingclay_file_bytes(clay, name, 4, into, sizeof into));
    HOLDS(answer.kind == BINDINGCLAY_DONE && answer.value == sizeof bytes);
    STEP(bindingclay_mkfifo(clay, pid, fifo, 4));
    STEP(bindingclay_pipe2(clay, pid, 0, &others));
    entry.fd = others.read_end;
    STEP(bindingclay_poll(clay, pid, &entry, 1, true));
    HOLDS(answer.kind == BINDINGCLAY_PARKED);
    call = answer.value;
    STEP(bindingclay_write(clay, pid, ends.write_end, bytes, 100));
    STEP(bindingclay_tee(clay, pid, ends.read_end, others.write_end, 100, 0));
    HOLDS(answer.kind == BINDINGCLAY_DONE && answer.value == 100);
    STEP(bindingclay_next_ready(clay, 0));
    HOLDS(answer.kind == BINDINGCLAY_DONE && answer.value == call);
    STEP(bindingclay_resume_poll(clay, call, &entry, 1));
    HOLDS(answer.kind == BINDINGCLAY_DONE && answer.value == 1 && entry.revents == 1);
    STEP(bindingclay_splice(clay, pid, others.read_end, NULL, file, NULL, 100, 0));
    HOLDS(answer.kind == BINDINGCLAY_DONE && answer.value == 100);
    STEP(bindingclay_fork(clay, pid));
    STEP(bindingclay_exit(clay, (uint32_t)answer.value));
    STEP(bindingclay_unlink(clay, pid, fifo, 4));
    STEP(bindingclay_exit(clay, pid));
    return refused;
}

static void all_goes_through(enum way way, bool has_reallocate)
{
    struct account account = new_account(has_reallocate);
    bindingclay clay;
    long blocks = atomic_load(&blocks_left);
    begin(way, &account);
    HOLDS(opened(way, &account, &clay));
    HOLDS(account.blocks > 0 && talk(clay) == 0);
    HOLDS(atomic_load(&blocks_left) == blocks);
    bindingclay_free(clay);
    HOLDS(is_settled(&account));
    end_way(way);
}

/* Each request is refused in turn. Its step finds no memory and is made again, so the answers are those of before. */
static void refusals(enum way way, bool has_reallocate)
{
    struct account account = new_account(has_reallocate);
    int refused = 0;
    begin(way, &account);
    for (long granted = 0;; granted++) {
        bindingclay clay = { NULL };
        account.was_refused = false;
        account.granted = granted;
        bool is_open = opened(way, &account, &clay);
        HOLDS(is_open != account.was_refused);
        if (is_open) {
            refused += talk(clay);
            bindingclay_free(clay);
        } else {
            HOLDS(clay.kernel == NULL);
        }
        HOLDS(is_settled(&account));
        if (!account.was_refused)
            break;
    }
    HOLDS(refused > 5);
    printf("%d steps were refused memory%s%s\n", refused, way == KEPT ? ", in kernels that keep their allocator" : "",
        has_reallocate ? "" : ", without reallocate");
    end_way(way);
}

/* Two kernels of what is set, each with an allocator of its own, in one thread. */
static void two_allocators(void)
{
    struct account first = new_account(true), second = new_account(true);
    bindingclay one, other;
    use(&first);
    HOLDS(bindingclay_open(1, 0, &one.kernel));
    long blocks = first.blocks;
    use(&second);
    HOLDS(bindingclay_open(1, 0, &other.kernel) && first.blocks == blocks && second.blocks == blocks);
    bindingclay_free(other);
    HOLDS(second.blocks == 0 && first.blocks == blocks);
    HOLDS(bindingclay_use_allocator(&first.allocator) == &second.allocator);
    bindingclay_free(one);
    HOLDS(first.blocks == 0);
    bindingclay_use_allocator(NULL);
}

/* ---- Kernels that keep their allocator ---- */

/* What is opened with limits that no kernel may have leaves nothing. What no limits and no allocator stand for is as the header has it. */
static void limits_and_nulls(void)
{
    struct account account = new_account(true);
    bindingclay clay = { NULL };
    bindingclay_limits limits = BINDINGCLAY_LIMITS;
    account.allocator.context = &account;
    limits.file_max = BINDINGCLAY_MOST_FILE_BYTES + 1;
    HOLDS(!bindingclay_open_with(&limits, &account.allocator, &clay.kernel));
    limits.file_max = 0;
    limits.size = sizeof limits - 1;
    HOLDS(!bindingclay_open_with(&limits, &account.allocator, &clay.kernel));
    HOLDS(clay.kernel == NULL && account.requests > 0 && is_settled(&account));
    limits.size = sizeof limits;
    limits.memory = 100000;
    HOLDS(bindingclay_open_with(&limits, &account.allocator, &clay.kernel) && bindingclay_memory(clay).most == 100000);
    bindingclay_free(clay);
    HOLDS(is_settled(&account));
    use_astray();
    long blocks = atomic_load(&blocks_left);
    HOLDS(bindingclay_open_with(NULL, NULL, &clay.kernel) && atomic_load(&blocks_left) > blocks);
    HOLDS(talk(clay) == 0 && bindingclay_memory(clay).most == UINT64_MAX);
    bindingclay_free(clay);
    HOLDS(atomic_load(&blocks_left) == blocks);
    end_astray();
}

enum { ROUNDS = 300 };

/* A kernel and its account, or that of what is set while a call is made on it. */
struct party {
    bindingclay clay;
    struct account account;
    bindingclay_ends ends;
    pthread_mutex_t lock;
    bool as_wanted;
};

/* A call on the kernel of a party asks nothing of another. */
static bool asks_of(const struct party *party, const struct party *others, size_t count, const long *requests)
{
    for (size_t i = 0; i < count; i++)
        if (&others[i] != party && others[i].account.requests != requests[i])
            return false;
    return true;
}

/* A round of calls on one kernel, which take memory and give it back. */
static bool goes_round(bindingclay clay, bindingclay_ends ends, uint8_t mark)
{
    static const uint8_t name[] = "name";
    uint8_t out[5000], in[5000];
    memset(out, mark, sizeof out);
    bindingclay_answer parked = bindingclay_read(clay, 1, ends.read_end, in, sizeof in);
    bool is_so = parked.kind == BINDINGCLAY_PARKED && bindingclay_write(clay, 1, ends.write_end, out, sizeof out).value == sizeof out
        && bindingclay_next_ready(clay, 0).value == parked.value && bindingclay_resume(clay, parked.value, in, sizeof in).value == sizeof in
        && memcmp(out, in, sizeof in) == 0 && bindingclay_mkfifo(clay, 1, name, 4).kind == BINDINGCLAY_DONE
        && bindingclay_unlink(clay, 1, name, 4).kind == BINDINGCLAY_DONE && bindingclay_fork(clay, 1).value == 2
        && bindingclay_exit(clay, 2).kind == BINDINGCLAY_DONE;
    return is_so && bindingclay_memory(clay).held > 0;
}

static void begin_party(struct party *party, enum way way)
{
    party->account = new_account(true);
    party->as_wanted = true;
    if (way == SET)
        use(&party->account);
    HOLDS(opened(way, &party->account, &party->clay));
    DONE(bindingclay_start(party->clay), 1);
    DONE(bindingclay_pipe(party->clay, 1, false, &party->ends), 0);
    bindingclay_use_allocator(NULL);
}

/* Two kernels that keep their allocators, and one of what is set, by turns in one thread. What is set is so all the time. */
static void by_turns(void)
{
    struct party parties[3];
    long requests[3];
    long blocks = atomic_load(&blocks_left);
    for (int i = 0; i < 3; i++)
        begin_party(&parties[i], i < 2 ? KEPT : SET);
    bindingclay_use_allocator(&parties[2].account.allocator);
    for (int round = 0; round < ROUNDS; round++) {
        struct party *party = &parties[round % 3];
        for (int i = 0; i < 3; i++)
            requests[i] = parties[i].account.requests;
        HOLDS(goes_round(party->clay, party->ends, (uint8_t)round) && asks_of(party, parties, 3, requests));
        HOLDS(party->account.requests > requests[round % 3]);
    }
    bindingclay_free(parties[0].clay);
    HOLDS(is_settled(&parties[0].account) && parties[1].account.blocks > 0 && parties[2].account.blocks > 0);
    bindingclay_free(parties[2].clay);
    HOLDS(is_settled(&parties[2].account) && parties[1].account.blocks > 0);
    bindingclay_use_allocator(NULL);
    bindingclay_free(parties[1].clay);
    HOLDS(is_settled(&parties[1].account) && atomic_load(&blocks_left) == blocks);
}

static void *take_part(void *argument)
{
    struct party *parties = argument;
    for (int round = 0; round < ROUNDS; round++) {
        struct party *party = &parties[round % 2];
        pthread_mutex_lock(&party->lock);
        party->as_wanted = party->as_wanted && goes_round(party->clay, party->ends, (uint8_t)round);
        pthread_mutex_unlock(&party->lock);
    }
    return NULL;
}

static void *give_back(void *argument)
{
    bindingclay_free(((struct party *)argument)->clay);
    return NULL;
}

/* The same two kernels by turns in two threads, under a lock of each kernel. A third thread frees one. */
static void in_two_threads(void)
{
    struct party parties[2];
    pthread_t threads[2];
    for (int i = 0; i < 2; i++) {
        begin_party(&parties[i], KEPT);
        HOLDS(pthread_mutex_init(&parties[i].lock, NULL) == 0);
    }
    astray = new_account(true);
    astray.allocator.context = &astray;
    bindingclay_set_allocator(&astray.allocator);
    for (int i = 0; i < 2; i++)
        HOLDS(pthread_create(&threads[i], NULL, take_part, parties) == 0);
    for (int i = 0; i < 2; i++)
        HOLDS(pthread_join(threads[i], NULL) == 0);
    HOLDS(parties[0].as_wanted && parties[1].as_wanted);
    HOLDS(pthread_create(&threads[0], NULL, give_back, &parties[0]) == 0 && pthread_join(threads[0], NULL) == 0);
    HOLDS(is_settled(&parties[0].account) && parties[1].account.blocks > 0);
    bindingclay_free(parties[1].clay);
    HOLDS(is_settled(&parties[1].account) && astray.requests == 0 && is_settled(&astray));
    bindingclay_set_allocator(NULL);
    for (int i = 0; i < 2; i++)
        pthread_mutex_destroy(&parties[i].lock);
}

/* ---- The front for threads ---- */

/* With the allocator of all threads. */
static void front(void)
{
    static struct account account;
    long blocks = atomic_load(&blocks_left);
    bc_shared *shared;
    bc_process process;
    int ends[2];
    static char bytes[5000], into[5000];
    struct iovec buffers[] = { { bytes, 4000 }, { bytes + 4000, 1000 } };
    account = new_account(true);
    account.allocator.context = &account;
    bindingclay_set_allocator(&account.allocator);
    HOLDS(bc_shared_open(NULL, &shared) == 0 && bc_start(shared, &process) == 0 && bc_pipe2(&process, ends, 0) == 0);
    HOLDS(bc_writev(&process, ends[1], buffers, 2) == 5000 && bc_read(&process, ends[0], into, sizeof into) == 5000);
    HOLDS(account.blocks > 0 && atomic_load(&blocks_left) == blocks);
    HOLDS(bc_exit(&process) == 0 && bc_shared_close(shared) == 0 && is_settled(&account));
    bindingclay_set_allocator(NULL);
}

/* What a thread of the front does: it reads what the other writes, or writes it. */
struct speaker {
    bc_process process;
    int fd;
    bool writes;
    bool as_wanted;
};

static void *speak(void *argument)
{
    struct speaker *speaker = argument;
    char bytes[3000] = { 0 };
    for (int round = 0; round < ROUNDS && speaker->as_wanted; round++) {
        ssize_t left = sizeof bytes;
        while (left > 0) {
            ssize_t moved = speaker->writes ? bc_write(&speaker->process, speaker->fd, bytes, (size_t)left)
                                            : bc_read(&speaker->process, speaker->fd, bytes, (size_t)left);
            if (moved <= 0)
                break;
            left -= moved;
        }
        speaker->as_wanted = left == 0;
    }
    return NULL;
}

/* Two kernels of the front that keep their allocators, each with a thread that writes and one that reads. */
static void fronts_with(void)
{
    struct account accounts[2];
    bc_shared *shared[2];
    struct speaker speakers[4];
    pthread_t threads[4];
    long blocks = atomic_load(&blocks_left);
    for (int i = 0; i < 2; i++) {
        accounts[i] = new_account(true);
        bindingclay_allocator copy = accounts[i].allocator;
        copy.context = &accounts[i];
        /* each request of an open is refused in turn */
        for (accounts[i].granted = 0;; accounts[i].granted++) {
            long granted = accounts[i].granted;
            errno = 0;
            if (bc_shared_open_with(NULL, &copy, &shared[i]) == 0)
                break;
            HOLDS(errno == ENOMEM && is_settled(&accounts[i]) && granted < 10);
            accounts[i].granted = granted;
        }
        HOLDS(accounts[i].was_refused);
        accounts[i].granted = -1;
        memset(&copy, UNTOUCHED, sizeof copy);
        int ends[2];
        HOLDS(bc_start(shared[i], &speakers[2 * i].process) == 0 && bc_pipe2(&speakers[2 * i].process, ends, 0) == 0);
        for (int j = 0; j < 2; j++)
            speakers[2 * i + j] = (struct speaker){ speakers[2 * i].process, ends[j], j == 1, true };
    }
    HOLDS(atomic_load(&blocks_left) == blocks);
    for (int i = 0; i < 4; i++)
        HOLDS(pthread_create(&threads[i], NULL, speak, &speakers[i]) == 0);
    for (int i = 0; i < 4; i++)
        HOLDS(pthread_join(threads[i], NULL) == 0 && speakers[i].as_wanted);
    HOLDS(atomic_load(&blocks_left) == blocks && accounts[0].blocks > 0 && accounts[1].blocks > 0);
    HOLDS(bc_shared_close(shared[0]) == 0 && is_settled(&accounts[0]) && accounts[1].blocks > 0);
    HOLDS(bc_shared_close(shared[1]) == 0 && is_settled(&accounts[1]));
}

/* ---- A kernel in memory that processes of the host share ---- */

enum { ARENA = 16 << 20, CHILDREN = 10, TURNS = 200 };

/* What the processes share: the lock, the kernel, and memory that is given out from its begin on. A block that goes is lost. */
struct arena {
    pthread_mutex_t lock;
    bindingclay clay;
    bindingclay_ends ends;
    uint32_t pid;
    size_t given;
    _Alignas(16) unsigned char bytes[ARENA];
};

static void *take_of_arena(void *context, size_t size)
{
    struct arena *arena = context;
    size_t rounded = (size + 15) / 16 * 16;
    if (rounded > ARENA - arena->given)
        return NULL;
    arena->given += rounded;
    return arena->bytes + arena->given - rounded;
}

static void lose(void *context, void *block, size_t size)
{
    (void)context, (void)block, (void)size;
}

/* What a process of the host does: it writes its number, and reads a number, by turns. Returns whether all that it read were numbers. */
static bool take_turns(struct arena *arena, uint8_t number)
{
    bool is_so = true;
    for (int i = 0; i < TURNS; i++) {
        uint8_t byte = 0;
        pthread_mutex_lock(&arena->lock);
        is_so = is_so && bindingclay_write(arena->clay, arena->pid, arena->ends.write_end, &number, 1).value == 1;
        pthread_mutex_unlock(&arena->lock);
        pthread_mutex_lock(&arena->lock);
        is_so = is_so && bindingclay_read(arena->clay, arena->pid, arena->ends.read_end, &byte, 1).value == 1 && byte >= 1 && byte <= CHILDREN;
        pthread_mutex_unlock(&arena->lock);
    }
    /* one that stays, by which the parent sees that each process was there */
    pthread_mutex_lock(&arena->lock);
    is_so = is_so && bindingclay_write(arena->clay, arena->pid, arena->ends.write_end, &number, 1).value == 1;
    pthread_mutex_unlock(&arena->lock);
    return is_so;
}

/* Forks the processes, and waits for their ends. */
static void fork_all(struct arena *arena)
{
    fflush(stdout);
    for (int i = 1; i <= CHILDREN; i++) {
        pid_t child = fork();
        HOLDS(child >= 0);
        if (child == 0)
            _exit(take_turns(arena, (uint8_t)i) ? 0 : 1);
    }
    for (int i = 0; i < CHILDREN; i++) {
        int status = -1;
        HOLDS(wait(&status) > 0 && status == 0);
    }
}

/* The kernel keeps the allocator, or each process has it set. */
static void shared_mapping(enum way way)
{
    struct arena *arena = mmap(NULL, sizeof *arena, PROT_READ | PROT_WRITE, MAP_SHARED | MAP_ANONYMOUS, -1, 0);
    pthread_mutexattr_t between_processes;
    uint8_t left[CHILDREN + 1];
    unsigned sum = 0;
    HOLDS(arena != MAP_FAILED);
    bindingclay_allocator of_arena = { take_of_arena, lose, NULL, arena };
    HOLDS(pthread_mutexattr_init(&between_processes) == 0);
    HOLDS(pthread_mutexattr_setpshared(&between_processes, PTHREAD_PROCESS_SHARED) == 0);
    HOLDS(pthread_mutex_init(&arena->lock, &between_processes) == 0);
    if (way == KEPT) {
        use_astray();
        HOLDS(bindingclay_open_with(NULL, &of_arena, &arena->clay.kernel));
        memset(&of_arena, UNTOUCHED, sizeof of_arena);
    } else {
        bindingclay_use_allocator(&of_arena);
        HOLDS(bindingclay_open(1, 0, &arena->clay.kernel));
    }
    arena->pid = (uint32_t)bindingclay_start(arena->clay).value;
    DONE(bindingclay_pipe(arena->clay, arena->pid, false, &arena->ends), 0);
    fork_all(arena);
    /* as many bytes stayed as there were processes, and those that were read are gone */
    DONE(bindingclay_read(arena->clay, arena->pid, arena->ends.read_end, left, sizeof left), CHILDREN);
    for (int i = 0; i < CHILDREN; i++)
        sum += left[i];
    HOLDS(sum >= CHILDREN && sum <= CHILDREN * CHILDREN);
    HOLDS((unsigned char *)arena->clay.kernel > arena->bytes && (unsigned char *)arena->clay.kernel < arena->bytes + ARENA);
    bindingclay_free(arena->clay);
    end_way(way);
    pthread_mutex_destroy(&arena->lock);
    pthread_mutexattr_destroy(&between_processes);
    munmap(arena, sizeof *arena);
}

/* With the word kernels, the front is passed over. */
int main(int count, char **words)
{
    bool is_without_front = count > 1 && strcmp(words[1], "kernels") == 0;
    for (int has_reallocate = 0; has_reallocate < 2; has_reallocate++)
        for (enum way way = SET; way <= KEPT; way++) {
            all_goes_through(way, has_reallocate);
            refusals(way, has_reallocate);
        }
    two_allocators();
    limits_and_nulls();
    by_turns();
    in_two_threads();
    if (!is_without_front) {
        front();
        fronts_with();
    }
    shared_mapping(SET);
    shared_mapping(KEPT);
    return end();
}

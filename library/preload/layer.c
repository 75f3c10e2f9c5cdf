/* The layer's kernel, its lock, how signals get to a thread that waits, and the counts. */
#include "preload.h"

#include <errno.h>
#include <string.h>

bc_process layer;
unsigned long counts[COUNTS];

static pthread_mutex_t lock = PTHREAD_MUTEX_INITIALIZER;
static sigset_t all_signals;
static __thread struct visit *current;
static struct poller *pollers;
/* The file of the counts, or null. */
static const char *count_file;

void die(const char *what)
{
    char text[200];
    int size = snprintf(text, sizeof text, "bindingclay_preload: %s: %s\n", what, strerror(errno));
    if (host()->write(2, text, (size_t)size) < size)
        abort();
    abort();
}

/* ---- In and out ---- */

static void tell_pollers(void)
{
    static const uint64_t one = 1;
    for (struct poller *poller = pollers; poller != NULL; poller = poller->next)
        /* it fails only if the eventfd is full, and then its thread is told already */
        (void)!host()->write(poller->event, &one, sizeof one);
}

void add_poller(struct poller *poller)
{
    poller->next = pollers;
    pollers = poller;
}

void remove_poller(struct poller *poller)
{
    struct poller **place = &pollers;
    while (*place != NULL && *place != poller)
        place = &(*place)->next;
    if (*place != NULL)
        *place = poller->next;
}

void enter(struct visit *visit)
{
    pthread_sigmask(SIG_SETMASK, &all_signals, &visit->before);
    pthread_mutex_lock(&lock);
    visit->is_broken = visit->is_signalled = visit->is_quiet = false;
    visit->moves = counts[MOVES];
    visit->outer = current;
    current = visit;
}

void leave(struct visit *visit)
{
    int error = errno;
    if (!visit->is_quiet)
        tell_pollers();
    current = visit->outer;
    pthread_mutex_unlock(&lock);
    pthread_sigmask(SIG_SETMASK, &visit->before, NULL);
    if (visit->is_broken)
        raise(SIGPIPE);
    errno = error;
}

bool enter_for(int fd, struct visit *visit)
{
    if (!is_ours(fd))
        return false;
    enter(visit);
    if (is_ours(fd))
        return true;
    leave(visit);
    return false;
}

bool leave_to_repeat(struct visit *visit, ssize_t answer)
{
    bool is_repeated = answer < 0 && errno == EINTR && !visit->is_signalled;
    leave(visit);
    return is_repeated;
}

bool is_moved(const struct visit *visit)
{
    return visit->moves != counts[MOVES];
}

/* How a thread sleeps whose call waits: without the lock, and with the signals of the program. So a handler runs here, where it may make calls,
 * and sem_wait fails with EINTR, or goes on after a handler with SA_RESTART, as a read does (signal(7)). */
static int sleep_with_signals(void *context, sem_t *answered)
{
    struct visit *visit = current;
    (void)context;
    tell_pollers();
    pthread_mutex_unlock(&lock);
    pthread_sigmask(SIG_SETMASK, &visit->before, NULL);
    int status = sem_wait(answered);
    pthread_sigmask(SIG_SETMASK, &all_signals, NULL);
    pthread_mutex_lock(&lock);
    visit->is_signalled = visit->is_signalled || status != 0;
    return status;
}

static void note_sigpipe(void *context, const bc_process *process)
{
    (void)context;
    (void)process;
    current->is_broken = true;
}

/* ---- The kernel ---- */

/* Makes the kernel and its process. If there is no memory for them, all calls are the host's. */
static void open_layer(void)
{
    bc_shared *shared;
    layer.shared = NULL;
    if (bc_shared_open(NULL, &shared) < 0)
        return;
    bc_on_sigpipe(shared, note_sigpipe, NULL);
    bc_on_sleep(shared, sleep_with_signals, NULL);
    if (bc_start(shared, &layer) < 0)
        layer.shared = NULL;
}

/* ---- Forks ---- */

/* The visit of a thread that forks. */
static __thread struct visit forking;

static void before_fork(void)
{
    enter(&forking);
    move_all();
}

static void after_fork(void)
{
    leave(&forking);
}

/* In the child there is the thread that forked, and no other. All pipes are the host's, so the child begins with a new kernel: what is listed in
 * the one of its parent may be on the stacks of threads that are gone. That one stays as it is if a thread of the parent was in a call. */
static void after_fork_in_child(void)
{
    if (layer.shared != NULL) {
        bc_shared_close(layer.shared);
        open_layer();
    }
    for (struct poller *poller = pollers; poller != NULL; poller = poller->next)
        host()->close(poller->event);
    pollers = NULL;
    memset(counts, 0, sizeof counts);
    leave(&forking);
}

/* ---- The begin and the end ---- */

__attribute__((constructor)) static void begin(void)
{
    host();
    sigfillset(&all_signals);
    count_file = getenv("BINDINGCLAY_PRELOAD_COUNT");
    find_folder();
    if (pthread_atfork(before_fork, after_fork, after_fork_in_child) == 0)
        open_layer();
}

__attribute__((destructor)) static void end(void)
{
    static const char *const names[COUNTS] = { "pipes", "fifo_opens", "reads", "writes", "splices", "tees", "polls", "dups", "flags", "moves",
        "host_pipes" };
    char line[400];
    int size = snprintf(line, sizeof line, "process %ld", (long)getpid());
    if (count_file == NULL)
        return;
    int file = host()->openat(AT_FDCWD, count_file, O_WRONLY | O_CREAT | O_APPEND | O_CLOEXEC, 0600);
    for (int i = 0; i < COUNTS; i++)
        size += snprintf(line + size, sizeof line - (size_t)size, " %s %lu", names[i], counts[i]);
    line[size++] = '\n';
    /* the file of another process's counts may be one that this one can't open */
    if (file < 0 || host()->write(file, line, (size_t)size) != size)
        (void)!host()->write(2, "bindingclay_preload: no counts\n", 31);
    if (file >= 0)
        host()->close(file);
}

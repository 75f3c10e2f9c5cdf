/* The run of a script on the host: the processes that make its calls, and the calls of them that wait. */
#include "beside.h"

#include <linux/capability.h>
#include <signal.h>
#include <sys/mman.h>
#include <sys/prctl.h>
#include <sys/resource.h>
#include <sys/stat.h>
#include <sys/syscall.h>
#include <time.h>

struct shared *shared;

/* A call that waits: what it goes on with. The bytes of a write are made anew of its line. */
struct parked {
    uint64_t number;
    struct request request;
    struct line line;
    bool blocks;
    struct parked *next;
};

/* The run: the host's process of each pid, the calls that wait, and the number of the next one. */
static pid_t host_pids[MOST_PIDS + 1];
static struct parked *parked;
static bool place_taken[MOST_WAITING];
static uint64_t next_number;
static bool by_runs, no_host;
static volatile sig_atomic_t stopped;

/* Without CAP_SYS_RESOURCE a pipe's greatest capacity holds for root too (fcntl(2), F_SETPIPE_SZ). */
static void lay_down_capability(void)
{
    struct __user_cap_header_struct header = { .version = _LINUX_CAPABILITY_VERSION_3 };
    struct __user_cap_data_struct data[2];
    if (syscall(SYS_capget, &header, data) != 0)
        return;
    data[0].effective &= ~(1U << CAP_SYS_RESOURCE);
    data[0].permitted &= ~(1U << CAP_SYS_RESOURCE);
    syscall(SYS_capset, &header, data);
}

/* The limits of the layer, and no descriptor of this program's. */
static _Noreturn void become_guest(uint32_t pid)
{
    struct rlimit limit;
    getrlimit(RLIMIT_NOFILE, &limit);
    limit.rlim_cur = OPEN_MAX_HERE;
    setrlimit(RLIMIT_NOFILE, &limit);
    getrlimit(RLIMIT_FSIZE, &limit);
    limit.rlim_cur = MOST_BYTES;
    setrlimit(RLIMIT_FSIZE, &limit);
    catch_signals();
    if (fchdir(files_folder()) != 0)
        _exit(1);
    syscall(SYS_close_range, 0U, ~0U, 0U);
    be_guest(pid);
}

/* Asks a process of the host, and waits for its answer. */
static struct answer ask(const struct request *request)
{
    shared->request = *request;
    sem_post(&shared->go[request->pid]);
    struct timespec until;
    clock_gettime(CLOCK_REALTIME, &until);
    until.tv_sec += PATIENCE;
    while (sem_timedwait(&shared->done, &until) != 0)
        if (errno == ETIMEDOUT) {
            no_host = true;
            return (struct answer){ .outcome = FAULT, .error = ETIMEDOUT };
        }
    return shared->answer;
}

/* Whether a thread sleeps, as /proc tells: 'S' behind the name in brackets (proc(5), /proc/[pid]/stat). */
static bool sleeps(const struct waiter *waiter)
{
    char path[64], text[512];
    snprintf(path, sizeof path, "/proc/%d/task/%d/stat", (int)waiter->pid, (int)waiter->tid);
    int file = open(path, O_RDONLY | O_CLOEXEC);
    if (file < 0)
        return false;
    ssize_t count = read(file, text, sizeof text - 1);
    close(file);
    if (count <= 0)
        return false;
    text[count] = '\0';
    const char *behind = strrchr(text, ')');
    return behind != NULL && behind[1] == ' ' && behind[2] == 'S';
}

/* Waits until a call that may block has ended, or sleeps. A call that was woken doesn't sleep. True if it ended. */
static bool ended(const struct waiter *waiter)
{
    for (long turns = 0; turns < PATIENCE * 20000L; turns++) {
        if (atomic_load(&waiter->done))
            return true;
        if (atomic_load(&waiter->calling) && sleeps(waiter))
            return atomic_load(&waiter->done);
        usleep(50);
    }
    no_host = true;
    return false;
}

/* The result of a call that blocked: of a thread, or of a process that opened a FIFO. */
static struct answer result_of(const struct request *request)
{
    struct request asked = { .call = shared->in_threads ? COLLECT : FETCH, .pid = request->pid, .place = request->place };
    place_taken[request->place] = false;
    return ask(&asked);
}

/* Makes a call of a process. One that may block has ended, or waits. */
static struct answer make(struct request *request)
{
    request->place = 0;
    while (request->place < MOST_WAITING - 1 && place_taken[request->place])
        request->place++;
    if (place_taken[request->place] && request->call >= OPEN && request->call <= POLL)
        return (struct answer){ .outcome = FAULT, .error = EAGAIN };
    struct answer answer = ask(request);
    if (answer.outcome != STARTED)
        return answer;
    place_taken[request->place] = true;
    if (ended(&shared->waiters[request->place]))
        return result_of(request);
    return (struct answer){ .outcome = STARTED };
}

/* The text that a line prints; a fixed one is copied. */
static char *said(const char *text)
{
    return strdup(text);
}

static char *parked_text(uint64_t number)
{
    char text[40];
    snprintf(text, sizeof text, "parked %" PRIu64, number);
    return said(text);
}

static char *interrupt(uint64_t number);

/* The last number is never given: the call is ended again. */
static char *refuse_last(void)
{
    free(interrupt(UINT64_MAX));
    next_number = UINT64_MAX;
    return said("calls spent");
}

static void keep_what_waits(struct parked *call, const struct answer *answer)
{
    call->request.again = true;
    call->request.taken = answer->taken;
    memcpy(call->request.fd, answer->kept, sizeof answer->kept);
    memcpy(call->request.entries, answer->entries, sizeof answer->entries);
}

static char *park(const struct request *request, const struct answer *answer, const struct line *line)
{
    struct parked *call = calloc(1, sizeof *call);
    if (call == NULL)
        return NULL;
    call->request = *request;
    call->number = next_number++;
    call->line = *line;
    call->blocks = answer->outcome == STARTED;
    if (!call->blocks)
        keep_what_waits(call, answer);
    call->next = parked;
    parked = call;
    return call->number == UINT64_MAX ? refuse_last() : parked_text(call->number);
}

static char *begin(struct request *request, const struct line *line)
{
    struct answer answer = make(request);
    if (answer.outcome == WAITS || answer.outcome == STARTED)
        return park(request, &answer, line);
    return answer_text(request, &answer, by_runs);
}

static struct parked **parked_at(uint64_t number)
{
    struct parked **at = &parked;
    while (*at != NULL && (*at)->number != number)
        at = &(*at)->next;
    return at;
}

/* Takes a call out of the list, with the text of its answer. */
static char *answered(struct parked **at, const struct answer *answer)
{
    struct parked *call = *at;
    char *text = answer_text(&call->request, answer, by_runs);
    *at = call->next;
    free(call);
    return text;
}

static char *resume(uint64_t number)
{
    struct parked **at = parked_at(number), *call = *at;
    if (call == NULL)
        return said("no call");
    if (call->blocks) {
        if (!ended(&shared->waiters[call->request.place]))
            return parked_text(number);
        struct answer answer = result_of(&call->request);
        return answered(at, &answer);
    }
    struct request made;
    if (call->request.call == WRITE)
        parse_line(call->line.at, call->line.length, by_runs, &made, shared->bytes);
    struct answer answer = ask(&call->request);
    if (answer.outcome != WAITS)
        return answered(at, &answer);
    keep_what_waits(call, &answer);
    return parked_text(number);
}

/* Waits until a process of the host is gone, with all that it had open. */
static void await_end(int process)
{
    struct pollfd gone = { .fd = process, .events = POLLIN };
    if (process < 0 || poll(&gone, 1, PATIENCE * 1000) != 1)
        no_host = true;
    close(process);
}

/* The place of a call that blocked is free again, and a process that opened a FIFO for it is gone. */
static void end_opener(const struct request *request)
{
    place_taken[request->place] = false;
    if (shared->in_threads)
        return;
    pid_t opener = shared->waiters[request->place].pid;
    int process = (int)syscall(SYS_pidfd_open, opener, 0U);
    kill(opener, SIGKILL);
    await_end(process);
}

static char *interrupt(uint64_t number)
{
    struct parked **at = parked_at(number), *call = *at;
    if (call == NULL)
        return said("no call");
    struct answer answer = { .outcome = FAULT, .error = EINTR };
    struct request asked = call->request;
    asked.call = shared->in_threads ? BREAK : LET_GO;
    if (shared->in_threads)
        answer = ask(&asked);
    else if (!call->blocks)
        ask(&asked);
    if (call->blocks)
        end_opener(&asked);
    if (!call->blocks && call->request.call == WRITE && call->request.taken > 0)
        answer = (struct answer){ .outcome = DONE, .value = (int64_t)call->request.taken };
    return answered(at, &answer);
}

static char *pid_text(uint32_t pid)
{
    char text[40];
    snprintf(text, sizeof text, "pid %" PRIu32, pid);
    return said(text);
}

static uint32_t least_pid(void)
{
    uint32_t pid = 1;
    while (pid <= MOST_PIDS && host_pids[pid] != 0)
        pid++;
    return pid;
}

static char *start(void)
{
    uint32_t pid = least_pid();
    if (pid > MOST_PIDS)
        return said("EAGAIN");
    pid_t made = fork();
    if (made == 0)
        become_guest(pid);
    if (made < 0)
        return said("EAGAIN");
    host_pids[pid] = made;
    return pid_text(pid);
}

static char *fork_guest(struct request *request)
{
    request->child = least_pid();
    if (request->child > MOST_PIDS)
        return said("EAGAIN");
    struct answer answer = ask(request);
    if (answer.outcome != DONE)
        return answer_text(request, &answer, by_runs);
    host_pids[request->child] = (pid_t)answer.value;
    return pid_text(request->child);
}

/* The calls of a process go with it. An open that another process makes for it is ended. */
static void drop_calls(uint32_t pid)
{
    for (struct parked **at = &parked; *at != NULL;) {
        struct parked *call = *at;
        if (call->request.pid != pid) {
            at = &call->next;
            continue;
        }
        if (call->blocks)
            end_opener(&call->request);
        *at = call->next;
        free(call);
    }
}

static char *end_guest(const struct request *request)
{
    drop_calls(request->pid);
    pid_t pid = host_pids[request->pid];
    int process = (int)syscall(SYS_pidfd_open, pid, 0U);
    shared->request = *request;
    sem_post(&shared->go[request->pid]);
    await_end(process);
    host_pids[request->pid] = 0;
    return said("ok");
}

static char *tell_file(struct request *request)
{
    int file = !take_name(request) ? -1 : openat(files_folder(), request->name, O_RDONLY | O_NOFOLLOW | O_NONBLOCK | O_CLOEXEC);
    struct stat found;
    char *text = NULL;
    if (file < 0 || fstat(file, &found) != 0 || !S_ISREG(found.st_mode)) {
        text = said("no file");
    } else {
        ssize_t count = read(file, shared->bytes, MOST_BYTES);
        text = count < 0 ? NULL : bytes_text("file", shared->bytes, (size_t)count, by_runs);
    }
    if (file >= 0)
        close(file);
    return text;
}

static char *outcome_of(struct request *request, const struct line *line)
{
    switch (request->call) {
    case START:
        return start();
    case RESUME:
        return resume(request->number);
    case INTERRUPT:
        return interrupt(request->number);
    case TELL_FILE:
        return tell_file(request);
    default:
        break;
    }
    if (request->pid > MOST_PIDS || host_pids[request->pid] == 0)
        return said("no process");
    if (!take_name(request))
        return said("not made");
    if (request->call == EXIT)
        return end_guest(request);
    return request->call == FORK ? fork_guest(request) : begin(request, line);
}

/* Ends all processes that were started, and takes the folder away. */
static void end_all(void)
{
    for (uint32_t pid = 1; pid <= MOST_PIDS; pid++)
        if (host_pids[pid] != 0) {
            drop_calls(pid);
            kill(host_pids[pid], SIGKILL);
            host_pids[pid] = 0;
        }
}

static void stop(int number)
{
    stopped = number;
}

static bool set_up(const struct script *script, bool in_threads)
{
    shared = mmap(NULL, sizeof *shared, PROT_READ | PROT_WRITE, MAP_SHARED | MAP_ANONYMOUS | MAP_NORESERVE, -1, 0);
    if (shared == MAP_FAILED || !make_folder())
        return false;
    shared->master = getpid();
    shared->in_threads = in_threads;
    sem_init(&shared->done, 1, 0);
    for (int i = 0; i <= MOST_PIDS; i++)
        sem_init(&shared->go[i], 1, 0);
    next_number = script->first_call;
    by_runs = script->version_2;
    signal(SIGCHLD, SIG_IGN);
    signal(SIGINT, stop);
    signal(SIGTERM, stop);
    signal(SIGHUP, stop);
    prctl(PR_SET_CHILD_SUBREAPER, 1);
    lay_down_capability();
    return true;
}

/* Runs the lines. `line` is the last that was run, or the one that ended the run early. */
static enum status run_lines(const struct script *script, printer *print, struct line *line)
{
    size_t place = 0;
    struct request request;
    for (line->number = 1; next_line(script, &place, &line->at, &line->length); line->number++) {
        if (line->number == 1 && script->version_2)
            continue;
        if (!parse_line(line->at, line->length, script->version_2, &request, shared->bytes))
            return BAD_LINE;
        if (request.call == ASKS_NOTHING)
            continue;
        char *text = outcome_of(&request, line);
        bool printed = text != NULL && !no_host && !stopped && print(line, text);
        enum status status = text == NULL ? NO_MEMORY : printed ? GOOD : CANNOT;
        free(text);
        if (status != GOOD)
            return status;
    }
    return GOOD;
}

enum status run_on_host(const struct script *script, bool in_threads, printer *print, struct line *line)
{
    enum status status = set_up(script, in_threads) ? run_lines(script, print, line) : CANNOT;
    if (no_host)
        fprintf(stderr, "beside: line %zu: the host doesn't answer\n", line->number);
    end_all();
    empty_folder();
    return status;
}

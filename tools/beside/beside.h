/* What the parts of beside share: a line of a script, what the host answered to it, and the memory in which the two sides meet. */
#ifndef BESIDE_H
#define BESIDE_H

#ifndef _GNU_SOURCE
#define _GNU_SOURCE
#endif

#include <errno.h>
#include <fcntl.h>
#include <inttypes.h>
#include <poll.h>
#include <semaphore.h>
#include <stdatomic.h>
#include <stdbool.h>
#include <stddef.h>
#include <stdint.h>
#include <stdio.h>
#include <stdlib.h>
#include <string.h>
#include <sys/types.h>
#include <unistd.h>

enum {
    /* docs/RULES.md, Limits */
    MOST_BYTES = 16777216,
    MOST_SCRIPT = 16777216,
    MOST_PIDS = 1024,
    OPEN_MAX_HERE = 256,
    PIPE_BUF_HERE = 4096,
    /* a longer name is cut to this: it is too long in any case */
    MOST_NAME = 300,
    /* calls that wait at once, each a thread or a process of the host */
    MOST_WAITING = 1024,
    /* descriptors from here on are none of the script's: they are kept for calls that wait */
    FIRST_KEPT = 300,
    /* seconds after which the host is taken not to answer */
    PATIENCE = 20
};

/* docs/RULES.md, The program: the statuses of piperun. The last is of beside alone: a difference that no row explains. */
enum status { GOOD = 0, CANNOT = 1, BAD_COMMAND = 2, BAD_LINE = 3, NO_MEMORY = 4, UNEXPLAINED = 5 };

enum call {
    ASKS_NOTHING, START, RESUME, INTERRUPT, TELL_FILE, PIPE, MKFIFO, OPEN, UNLINK, READ, WRITE, SPLICE, TEE, POLL, DUP, DUP2, DUP_FD,
    CLOSE, LSEEK, GET_FL, SET_FL, GET_SZ, SET_SZ, FORK, EXIT,
    /* what only beside asks of a process: the result of a call in a thread, a descriptor of a process that opened it, that a call in a
     * thread ends, and that kept descriptors go */
    COLLECT, FETCH, BREAK, LET_GO
};

/* What a line asks. */
struct request {
    enum call call;
    uint32_t pid;
    uint64_t number; /* of a resume and an interrupt */
    int32_t fd[2];
    bool has_offset[2];
    int64_t offset[2];
    uint32_t length;
    int32_t least; /* of a dupfd */
    int64_t seek;
    int whence;
    int mode, flags; /* with the host's numbers */
    bool waits; /* of a poll */
    char name[MOST_NAME + 1];
    size_t name_length;
    struct pollfd entries[OPEN_MAX_HERE + 1];
    size_t entry_count;
    size_t byte_count; /* of a write, whose bytes are in the shared memory */
    /* of a call that is tried again */
    bool again;
    size_t taken;
    /* of a fork: the child's pid in the script; of a call in a thread, and of what is asked of it: its place */
    uint32_t child;
    int place;
    pid_t opener;
};

enum outcome { DONE, FAULT, WAITS, STARTED };

struct answer {
    enum outcome outcome;
    int64_t value;
    int error;
    bool sigpipe;
    int ends[2];
    size_t taken;
    /* what a call that waits goes on with */
    int32_t kept[2];
    struct pollfd entries[OPEN_MAX_HERE + 1];
};

/* A call that blocks in a thread or a process of its own. */
struct waiter {
    atomic_bool calling, done;
    pid_t pid, tid;
    int64_t value;
    int error;
    bool sigpipe;
};

/* The memory in which the host's processes are told what to do and answer. One of them works at a time. */
struct shared {
    sem_t go[MOST_PIDS + 1];
    sem_t done;
    pid_t master;
    bool in_threads;
    struct request request;
    struct answer answer;
    struct waiter waiters[MOST_WAITING];
    uint8_t bytes[MOST_BYTES];
};

extern struct shared *shared;

/* A script: its bytes, and the lines of it. */
struct script {
    char *text;
    size_t length;
    bool version_2;
    uint64_t first_call;
};

/* A line of a script. */
struct line {
    size_t number, length;
    const char *at;
};

/* script.c: the lines of a script. */
bool names_version_2(const char *text, size_t length);
/* What a line asks, without its line feed. The bytes of a write go to `bytes`. False if it is no line of the format. */
bool parse_line(const char *line, size_t length, bool version_2, struct request *request, uint8_t *bytes);
/* The next line of a script behind a place, which goes on; false behind the last. */
bool next_line(const struct script *script, size_t *place, const char **line, size_t *length);

/* What a good line asks, without the bytes of a write. */
struct request asked_by(const struct line *line, bool version_2);

/* text.c: the texts of replies. A text is allocated by malloc; null if there is no memory. */
char *answer_text(const struct request *request, const struct answer *answer, bool by_runs);
char *bytes_text(const char *word, const uint8_t *bytes, size_t count, bool by_runs);

/* guest.c: a process of the host that makes the calls of a process of the script. It never returns. */
_Noreturn void be_guest(uint32_t pid);

/* waiting.c: calls that wait. */
struct answer try_call(const struct request *request);
struct answer start_thread(const struct request *request);
struct answer collect(const struct request *request);
struct answer start_opener(const struct request *request);
struct answer fetch(const struct request *request);
struct answer break_call(const struct request *request);
void let_go(const struct request *request);
/* The host's call itself, which may block, with the buffer of a read or the bytes of a write. */
int64_t make_call(const struct request *request, uint8_t *bytes, struct pollfd *entries);
void catch_signals(void);

/* folder.c: the folder of the script's files, new at each run. False if it can't be made. */
bool make_folder(void);
void empty_folder(void);
/* A descriptor of it, or -1. */
int files_folder(void);
/* Gives a name to the host as it can have it: false if it can't. */
bool take_name(struct request *request);

/* master.c: the run of a script on the host. What each line prints is given to `print`, which is false if it can't. `line` is the last. */
typedef bool printer(const struct line *line, const char *text);
enum status run_on_host(const struct script *script, bool in_threads, printer *print, struct line *line);

/* A line that the host answers otherwise than piperun, and the line of the call that it goes on with, or null. */
struct difference {
    const struct script *script;
    const struct line *line, *begun_at;
    const char *here, *host;
    /* whether a large write waited before it, or an open, and whether no number was left for a call */
    bool large_waited, open_waited, spent;
};

/* rows.c: the row of docs/LINUX.md that explains a difference, by its first column, or null. */
const char *row_of(const struct difference *difference);

#endif

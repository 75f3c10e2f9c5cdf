/* Records. Each call is made while its steps are recorded, and leaves the lines that docs/RULES.md has for it, in "Scripts" and in "Records". A
 * call that makes no step leaves none. A record is handed out by pieces, and when it begins and ends.
 *
 *   records FOLDER    writes each record to FOLDER, for piperun --check */
#define _GNU_SOURCE
#include "records.h"

#include <fcntl.h>
#include <poll.h>

static const char *folder;

static struct record record;

/* How many replies the record has. */
static long replies;

/* What was handed out since the last time is a text; every second line of it is a reply, except of the two lines in front. */
static bool tells(const char *file, int line, bindingclay clay, const char *text)
{
    size_t before = record.length, length = strlen(text);
    drain(clay, &record, 4096);
    bool is_so = record.length - before == length && memcmp(record.text + before, text, length) == 0;
    if (!is_so) {
        checks_failed++;
        printf("%s:%d: the record tells %.*s, and not %s\n", file, line, (int)(record.length - before), record.text + before, text);
    }
    for (const char *at = text; (at = strstr(at, "# => ")) != NULL; at++)
        replies++;
    return is_so;
}

#define TELLS(text) tells(__FILE__, __LINE__, clay, text)
#define TELLS_NOTHING() TELLS("")

static const char HEADER[] = "piperun 2\n# piperun --first-call 1 --file-max 16777216 --names-max 18446744073709551615 --waiting-max "
                             "18446744073709551615 --capacity-max 1048576 --descriptors-max 256\n";

static void begin_record(void)
{
    record.length = 0;
    replies = 0;
}

static bindingclay recorded_kernel(void)
{
    bindingclay clay = new_kernel(1, BINDINGCLAY_MOST_FILE_BYTES);
    begin_record();
    DONE(bindingclay_record(clay, true), 0);
    TELLS(HEADER);
    return clay;
}

static void end_record(bindingclay clay, const char *name)
{
    TELLS_NOTHING();
    save(&record, folder, name, replies);
    bindingclay_free(clay);
}

/* ---- Calls ---- */

static void pipes_and_bytes(bindingclay clay)
{
    bindingclay_ends ends;
    DONE(bindingclay_start(clay), 1);
    TELLS("start\n# => pid 1\n");
    DONE(bindingclay_pipe(clay, 1, false, &ends), 0);
    TELLS("1 pipe\n# => fds 0 1\n");
    DONE(bindingclay_pipe(clay, 1, true, &ends), 0);
    TELLS("1 pipe nonblock\n# => fds 2 3\n");
    DONE(bindingclay_pipe2(clay, 1, O_NONBLOCK | BINDINGCLAY_O_DIRECT, &ends), 0);
    TELLS("1 pipe nonblock,direct\n# => fds 4 5\n");
    DONE(put(clay, 1, 1, "hello"), 5);
    TELLS("1 write 1 68656c6c6f\n# => count 5\n");
    DONE(put(clay, 1, 1, "xxxxxy"), 6);
    TELLS("1 write 1 5*78+79\n# => count 6\n");
    DONE(put(clay, 1, 1, ""), 0);
    TELLS("1 write 1 -\n# => count 0\n");
    READS(clay, 1, 0, 7, "helloxx");
    TELLS("1 read 0 7\n# => data 68656c6c6f7878\n");
    READS(clay, 1, 0, 100, "xxxy");
    TELLS("1 read 0 100\n# => data 78787879\n");
    READS(clay, 1, 0, 0, "");
    TELLS("1 read 0 0\n# => data -\n");
    FAULT(take(clay, 1, 2, 9), EAGAIN);
    TELLS("1 read 2 9\n# => EAGAIN\n");
    FAULT(put(clay, 1, -1, "a"), EBADF);
    TELLS("1 write -1 61\n# => EBADF\n");
    OTHER(put(clay, 7, 1, "a"), BINDINGCLAY_NO_PROCESS);
    TELLS("7 write 1 61\n# => no process\n");
    DONE(put(clay, 1, 1, "abcd"), 4);
    TELLS("1 write 1 61626364\n# => count 4\n");
    DONE(bindingclay_tee(clay, 1, 0, 3, 3, SPLICE_F_NONBLOCK | SPLICE_F_GIFT), 3);
    TELLS("1 tee 0 3 3 nonblock,gift\n# => count 3\n");
    DONE(bindingclay_splice(clay, 1, 0, NULL, 3, NULL, 9, 0), 4);
    TELLS("1 splice 0 - 3 - 9\n# => count 4\n");
    READS(clay, 1, 2, 9, "abcabcd");
    TELLS("1 read 2 9\n# => data 61626361626364\n");
}

static void files_and_names(bindingclay clay)
{
    const uint64_t first = 1, last = UINT64_MAX;
    DONE(open_text(clay, 1, "f", O_RDWR | O_CREAT | O_EXCL | O_TRUNC | O_APPEND | O_NONBLOCK), 6);
    TELLS("1 open f rw creat,excl,trunc,append,nonblock\n# => fd 6\n");
    DONE(put(clay, 1, 6, "file"), 4);
    TELLS("1 write 6 66696c65\n# => count 4\n");
    DONE(bindingclay_get_fl(clay, 1, 6), O_RDWR | O_APPEND | O_NONBLOCK);
    TELLS("1 getfl 6\n# => flags rw append,nonblock\n");
    DONE(bindingclay_set_fl(clay, 1, 6, 0), 0);
    TELLS("1 setfl 6 -\n# => ok\n");
    DONE(bindingclay_set_fl(clay, 1, 6, O_APPEND), 0);
    TELLS("1 setfl 6 append\n# => ok\n");
    DONE(bindingclay_lseek(clay, 1, 6, -1, SEEK_END), 3);
    TELLS("1 lseek 6 -1 end\n# => offset 3\n");
    DONE(bindingclay_lseek(clay, 1, 6, 1, SEEK_CUR), 4);
    TELLS("1 lseek 6 1 cur\n# => offset 4\n");
    FAULT(bindingclay_lseek(clay, 1, 6, INT64_MIN, SEEK_SET), EINVAL);
    TELLS("1 lseek 6 -9223372036854775808 set\n# => EINVAL\n");
    DONE(bindingclay_splice(clay, 1, 6, &first, 3, NULL, 2, SPLICE_F_MOVE | SPLICE_F_MORE), 2);
    TELLS("1 splice 6 1 3 - 2 move,more\n# => count 2\n");
    FAULT(bindingclay_splice(clay, 1, 2, NULL, 6, &last, BINDINGCLAY_MOST_SIZE, 0), EINVAL);
    TELLS("1 splice 2 - 6 18446744073709551615 2147479552\n# => EINVAL\n");
    DONE(mkfifo_text(clay, 1, "a %-\n\xff"), 0);
    TELLS("1 mkfifo a%20%25-%0a%ff\n# => ok\n");
    FAULT(open_text(clay, 1, "a %-\n\xff", O_WRONLY | O_NONBLOCK), ENXIO);
    TELLS("1 open a%20%25-%0a%ff w nonblock\n# => ENXIO\n");
    FAULT(unlink_text(clay, 1, ""), ENOENT);
    TELLS("1 unlink -\n# => ENOENT\n");
    FAULT(unlink_text(clay, 1, "-"), ENOENT);
    TELLS("1 unlink %2d\n# => ENOENT\n");
    DONE(unlink_text(clay, 1, "f"), 0);
    TELLS("1 unlink f\n# => ok\n");
}

static void descriptors_and_processes(bindingclay clay)
{
    DONE(bindingclay_dup(clay, 1, 0), 7);
    TELLS("1 dup 0\n# => fd 7\n");
    DONE(bindingclay_dup2(clay, 1, 1, 255), 255);
    TELLS("1 dup2 1 255\n# => fd 255\n");
    FAULT(bindingclay_dup_fd(clay, 1, 1, -9), EINVAL);
    TELLS("1 dupfd 1 -9\n# => EINVAL\n");
    DONE(bindingclay_close(clay, 1, 7), 0);
    TELLS("1 close 7\n# => ok\n");
    DONE(bindingclay_get_pipe_sz(clay, 1, 0), 65536);
    TELLS("1 getsz 0\n# => size 65536\n");
    DONE(bindingclay_set_pipe_sz(clay, 1, 0, 5000), 8192);
    TELLS("1 setsz 0 5000\n# => size 8192\n");
    DONE(bindingclay_get_fl(clay, 1, 5), O_WRONLY | O_NONBLOCK | BINDINGCLAY_O_DIRECT);
    TELLS("1 getfl 5\n# => flags w nonblock,direct\n");
    DONE(bindingclay_fork(clay, 1), 2);
    TELLS("1 fork\n# => pid 2\n");
    DONE(bindingclay_exit(clay, 2), 0);
    TELLS("2 exit\n# => ok\n");
    OTHER(bindingclay_exit(clay, 2), BINDINGCLAY_NO_PROCESS);
    TELLS("2 exit\n# => no process\n");
}

/* ---- Calls that wait ---- */

static void reads_and_writes_that_wait(bindingclay clay)
{
    uint8_t into[16];
    PARKED(take(clay, 1, 0, 9), 1);
    TELLS("1 read 0 9\n# => parked 1\n");
    PARKED(again(clay, 1), 1);
    TELLS("resume 1\n# => parked 1\n");
    DONE(put(clay, 1, 1, "abc"), 3);
    TELLS("1 write 1 616263\n# => count 3\n");
    /* too little room: the call isn't tried, and nothing is recorded */
    SHORT(bindingclay_resume(clay, 1, into, 2), 3);
    TELLS_NOTHING();
    RESUMES(clay, 1, 9, "abc");
    TELLS("resume 1\n# => data 616263\n");
    OTHER(again(clay, 1), BINDINGCLAY_NO_CALL);
    TELLS("resume 1\n# => no call\n");
    PARKED_WITH_BYTES(put_many(clay, 1, 1, 9000), 2);
    TELLS("1 write 1 9000*61\n# => parked 2\n");
    DONE(take(clay, 1, 0, 4096), 4096);
    TELLS("1 read 0 4096\n# => data 4096*61\n");
    DONE(bindingclay_resume_of(clay, 1, 2, NULL, 0), 9000);
    TELLS("resume 2\n# => count 9000\n");
    /* it isn't the call of this process, so the kernel isn't asked */
    OTHER(bindingclay_interrupt_of(clay, 2, 3), BINDINGCLAY_NO_CALL);
    TELLS_NOTHING();
    PARKED_WITH_BYTES(put_many(clay, 1, 1, 4097), 3);
    TELLS("1 write 1 4097*61\n# => parked 3\n");
    DONE(bindingclay_interrupt(clay, 3), 3288);
    TELLS("interrupt 3\n# => count 3288\n");
    DONE(take(clay, 1, 0, 9000), 8192);
    TELLS("1 read 0 9000\n# => data 8192*61\n");
}

static void polls_and_opens_that_wait(bindingclay clay)
{
    bindingclay_pollfd entries[] = { { 0, POLLIN | POLLPRI, 0 }, { -1, 0, 0 }, { 1, POLLIN | POLLOUT, 0 } };
    DONE(bindingclay_poll(clay, 1, entries, 3, false), 1);
    TELLS("1 poll now 0:in -1:- 1:in,out\n# => masks 1 - - out\n");
    DONE(bindingclay_poll(clay, 1, NULL, 0, false), 0);
    TELLS("1 poll now\n# => masks 0\n");
    PARKED(bindingclay_poll(clay, 1, entries, 2, true), 4);
    TELLS("1 poll wait 0:in -1:-\n# => parked 4\n");
    DONE(put(clay, 1, 1, "a"), 1);
    TELLS("1 write 1 61\n# => count 1\n");
    SHORT(again(clay, 4), 2);
    TELLS_NOTHING();
    /* one entry has no room here, and is told all the same */
    DONE(bindingclay_resume_poll(clay, 4, entries, 1), 1);
    TELLS("resume 4\n# => masks 1 in -\n");
    DONE(mkfifo_text(clay, 1, "q"), 0);
    TELLS("1 mkfifo q\n# => ok\n");
    PARKED(open_text(clay, 1, "q", O_RDONLY), 5);
    TELLS("1 open q r\n# => parked 5\n");
    FAULT(bindingclay_interrupt_of(clay, 1, 5), EINTR);
    TELLS("interrupt 5\n# => EINTR\n");
    PARKED(open_text(clay, 1, "q", O_RDONLY), 6);
    TELLS("1 open q r\n# => parked 6\n");
    DONE(open_text(clay, 1, "q", O_WRONLY), 7);
    TELLS("1 open q w\n# => fd 7\n");
    DONE(bindingclay_resume_poll_of(clay, 1, 6, NULL, 0), 8);
    TELLS("resume 6\n# => fd 8\n");
    DONE(bindingclay_close(clay, 1, 8), 0);
    TELLS("1 close 8\n# => ok\n");
    FAULT(put(clay, 1, 7, "a"), EPIPE);
    TELLS("1 write 7 61\n# => EPIPE sigpipe\n");
}

/* ---- What leaves nothing ---- */

static void calls_without_a_step(bindingclay clay)
{
    bindingclay_ends ends;
    bindingclay_node_facts node;
    bindingclay_waiting_facts waiting;
    bindingclay_process process;
    bindingclay_segment_use segments;
    uint8_t byte;
    FAULT(bindingclay_pipe2(clay, 1, O_APPEND, &ends), EINVAL);
    FAULT(open_text(clay, 1, "f", O_ACCMODE), EINVAL);
    FAULT(bindingclay_lseek(clay, 1, 0, 0, 77), EINVAL);
    FAULT(bindingclay_splice(clay, 1, 0, NULL, 3, NULL, 1, 1u << 20), EINVAL);
    FAULT(bindingclay_tee(clay, 1, 0, 3, 1, 1u << 20), EINVAL);
    DONE(bindingclay_held(clay, 1, 0), 1);
    DONE(bindingclay_fd_facts(clay, 1, 0, &node), 0);
    FAULT(bindingclay_name_facts(clay, bytes_of("x"), 1, &node), ENOENT);
    FAULT(bindingclay_file_bytes(clay, bytes_of("x"), 1, &byte, 1), ENOENT);
    OTHER(bindingclay_call_facts(clay, 9, &waiting), BINDINGCLAY_NO_CALL);
    DONE(bindingclay_process_facts(clay, 1, &process), 0);
    OTHER(bindingclay_process_facts(clay, 0, &process), BINDINGCLAY_NO_PROCESS);
    OTHER(bindingclay_owner(clay, 9), BINDINGCLAY_NO_CALL);
    OTHER(bindingclay_taken(clay, 9), BINDINGCLAY_NO_CALL);
    OTHER(bindingclay_next_ready(clay, 0), BINDINGCLAY_NO_CALL);
    HOLDS(bindingclay_can_progress(clay, 9));
    bindingclay_stats(clay, &segments);
    HOLDS(bindingclay_memory(clay).held > 0);
    TELLS_NOTHING();
}

static void each_call(void)
{
    bindingclay clay = recorded_kernel();
    pipes_and_bytes(clay);
    files_and_names(clay);
    descriptors_and_processes(clay);
    reads_and_writes_that_wait(clay);
    polls_and_opens_that_wait(clay);
    calls_without_a_step(clay);
    end_record(clay, "calls");
}

/* ---- Limits, numbers that are spent, and calls that are cut ---- */

static void limits_are_told(void)
{
    bindingclay_limits limits = BINDINGCLAY_LIMITS;
    bindingclay clay = { NULL };
    limits.first_call = UINT64_MAX - 1;
    limits.names = 1;
    limits.waiting_calls = 2;
    limits.capacity = 65536;
    limits.file_max = 3;
    limits.descriptors_max = 3;
    HOLDS(bindingclay_open_within(&limits, &clay.kernel));
    begin_record();
    DONE(bindingclay_record(clay, true), 0);
    TELLS("piperun 2\n# piperun --first-call 18446744073709551614 --file-max 3 --names-max 1 --waiting-max 2 --capacity-max 65536 "
          "--descriptors-max 3\n");
    DONE(bindingclay_start(clay), 1);
    NEW_PIPE(clay, 1, false);
    PARKED(take(clay, 1, 0, 1), UINT64_MAX - 1);
    OTHER(take(clay, 1, 0, 1), BINDINGCLAY_CALLS_SPENT);
    FAULT(bindingclay_set_pipe_sz(clay, 1, 0, 65537), EPERM);
    DONE(open_text(clay, 1, "f", O_WRONLY | O_CREAT), 2);
    FAULT(open_text(clay, 1, "g", O_WRONLY | O_CREAT), EMFILE);
    FAULT(bindingclay_dup2(clay, 1, 2, 3), EBADF);
    DONE(bindingclay_close(clay, 1, 1), 0);
    FAULT(open_text(clay, 1, "g", O_WRONLY | O_CREAT), ENOSPC);
    DONE(put(clay, 1, 2, "abcd"), 3);
    TELLS("start\n# => pid 1\n1 pipe\n# => fds 0 1\n1 read 0 1\n# => parked 18446744073709551614\n1 read 0 1\n# => calls spent\n"
          "1 setsz 0 65537\n# => EPERM\n1 open f w creat\n# => fd 2\n1 open g w creat\n# => EMFILE\n1 dup2 2 3\n# => EBADF\n1 close 1\n# => ok\n"
          "1 open g w creat\n# => ENOSPC\n1 write 2 61626364\n# => count 3\n");
    end_record(clay, "limits");
}

/* Of descriptions, processes and the waiting calls of each a header tells the limits that aren't the usual ones. */
static void limits_that_are_not_the_usual_ones(void)
{
    static const struct {
        uint64_t descriptors, descriptions, processes, waiting_of_each;
        const char *told;
    } ROWS[] = {
        { 1000, BINDINGCLAY_USUAL_DESCRIPTIONS, BINDINGCLAY_USUAL_PROCESSES, UINT64_MAX, "1000" },
        { BINDINGCLAY_USUAL_DESCRIPTORS, 3, BINDINGCLAY_USUAL_PROCESSES, UINT64_MAX, "256 --descriptions-max 3" },
        { BINDINGCLAY_USUAL_DESCRIPTORS, BINDINGCLAY_USUAL_DESCRIPTIONS, 2, UINT64_MAX, "256 --processes-max 2" },
        { BINDINGCLAY_USUAL_DESCRIPTORS, BINDINGCLAY_USUAL_DESCRIPTIONS, BINDINGCLAY_USUAL_PROCESSES, UINT64_MAX - 1,
            "256 --waiting-of-each 18446744073709551614" },
        { BINDINGCLAY_MOST_DESCRIPTORS, BINDINGCLAY_MOST_DESCRIPTIONS, BINDINGCLAY_MOST_PROCESSES, 0,
            "65536 --descriptions-max 1048576 --processes-max 65536 --waiting-of-each 0" },
        { 2, 3, 2, 1, "2 --descriptions-max 3 --processes-max 2 --waiting-of-each 1" },
    };
    bindingclay_limits limits = BINDINGCLAY_LIMITS;
    bindingclay clay = { NULL };
    for (size_t i = 0; i < sizeof ROWS / sizeof *ROWS; i++) {
        char line[300];
        limits.descriptors_max = ROWS[i].descriptors;
        limits.descriptions_max = ROWS[i].descriptions;
        limits.processes_max = ROWS[i].processes;
        limits.waiting_of_each = ROWS[i].waiting_of_each;
        HOLDS(bindingclay_open_within(&limits, &clay.kernel));
        begin_record();
        DONE(bindingclay_record(clay, true), 0);
        snprintf(line, sizeof line, "piperun 2\n# piperun --first-call 1 --file-max 16777216 --names-max 18446744073709551615 --waiting-max "
                 "18446744073709551615 --capacity-max 1048576 --descriptors-max %s\n", ROWS[i].told);
        TELLS(line);
        if (i + 1 < sizeof ROWS / sizeof *ROWS)
            bindingclay_free(clay);
    }
    DONE(bindingclay_start(clay), 1);
    NEW_PIPE(clay, 1, false);
    FAULT(bindingclay_dup(clay, 1, 0), EMFILE);
    DONE(bindingclay_close(clay, 1, 0), 0);
    DONE(open_text(clay, 1, "f", O_RDWR | O_CREAT), 0);
    DONE(bindingclay_fork(clay, 1), 2);
    DONE(bindingclay_close(clay, 2, 0), 0);
    DONE(open_text(clay, 2, "f", O_RDWR), 0);
    DONE(bindingclay_close(clay, 2, 1), 0);
    FAULT(open_text(clay, 2, "f", O_RDWR), ENFILE);
    FAULT(bindingclay_start(clay), EAGAIN);
    PARKED(bindingclay_poll(clay, 2, NULL, 0, true), 1);
    FAULT(bindingclay_poll(clay, 2, NULL, 0, true), EAGAIN);
    PARKED(bindingclay_poll(clay, 1, NULL, 0, true), 2);
    TELLS("start\n# => pid 1\n1 pipe\n# => fds 0 1\n1 dup 0\n# => EMFILE\n1 close 0\n# => ok\n1 open f rw creat\n# => fd 0\n1 fork\n# => pid 2\n"
          "2 close 0\n# => ok\n2 open f rw\n# => fd 0\n2 close 1\n# => ok\n2 open f rw\n# => ENFILE\nstart\n# => EAGAIN\n"
          "2 poll wait\n# => parked 1\n2 poll wait\n# => EAGAIN\n1 poll wait\n# => parked 2\n");
    end_record(clay, "tables");
}

/* Of more than 16,777,216 bytes one call takes as many, and of a name it looks at 256. */
static void calls_that_are_cut(void)
{
    static uint8_t many[BINDINGCLAY_MOST_BYTES + 9];
    static char name[301], line[1000];
    bindingclay clay = recorded_kernel();
    DONE(bindingclay_start(clay), 1);
    DONE(open_text(clay, 1, "f", O_RDWR | O_CREAT), 0);
    DONE(bindingclay_write(clay, 1, 0, many, sizeof many), BINDINGCLAY_MOST_BYTES);
    DONE(bindingclay_lseek(clay, 1, 0, 0, SEEK_SET), 0);
    DONE(bindingclay_read(clay, 1, 0, many, sizeof many), BINDINGCLAY_MOST_BYTES);
    TELLS("start\n# => pid 1\n1 open f rw creat\n# => fd 0\n1 write 0 16777216*00\n# => count 16777216\n"
          "1 lseek 0 0 set\n# => offset 0\n1 read 0 16777216\n# => data 16777216*00\n");
    memset(name, 'n', 300);
    FAULT(mkfifo_text(clay, 1, name), ENAMETOOLONG);
    snprintf(line, sizeof line, "1 mkfifo %.256s\n# => ENAMETOOLONG\n", name);
    TELLS(line);
    end_record(clay, "cut");
}

/* ---- How a record begins, ends, and is handed out ---- */

static void when_it_begins(void)
{
    uint8_t bytes[8];
    bindingclay clay = new_kernel(1, BINDINGCLAY_MOST_FILE_BYTES);
    FAULT(bindingclay_recorded(clay, bytes, sizeof bytes), EINVAL);
    FAULT(bindingclay_recorded(clay, NULL, 0), EINVAL);
    DONE(bindingclay_record(clay, false), 0);
    DONE(bindingclay_record(clay, true), 0);
    FAULT(bindingclay_record(clay, true), EINVAL);
    DONE(bindingclay_recorded(clay, NULL, 0), 0);
    DONE(bindingclay_recorded(clay, bytes, sizeof bytes), 8);
    HOLDS(memcmp(bytes, "piperun ", 8) == 0);
    DONE(bindingclay_start(clay), 1);
    DONE(bindingclay_record(clay, false), 0);
    FAULT(bindingclay_recorded(clay, bytes, sizeof bytes), EINVAL);
    FAULT(bindingclay_record(clay, true), EINVAL);
    DONE(bindingclay_exit(clay, 1), 0);
    FAULT(bindingclay_record(clay, true), EINVAL);
    bindingclay_free(clay);
    /* a process was started: what it did can't be told any more */
    clay = kernel_with_process();
    FAULT(bindingclay_record(clay, true), EINVAL);
    bindingclay_free(clay);
}

/* Makes a few calls, and takes the record by pieces of so many bytes: after each call, or at the end. */
static void by_pieces(size_t piece, bool at_once, struct record *into)
{
    bindingclay clay = new_kernel(1, BINDINGCLAY_MOST_FILE_BYTES);
    DONE(bindingclay_record(clay, true), 0);
    DONE(bindingclay_start(clay), 1);
    NEW_PIPE(clay, 1, false);
    for (int i = 0; i < 50; i++) {
        DONE(put_many(clay, 1, 1, 100), 100);
        if (at_once)
            drain(clay, into, piece);
        DONE(take(clay, 1, 0, 90), 90);
    }
    drain(clay, into, piece);
    TELLS_NOTHING();
    bindingclay_free(clay);
}

static void pieces_are_the_same(void)
{
    static const size_t PIECES[] = { 1, 7, 4096 };
    struct record whole = { NULL, 0, 0 };
    by_pieces(4096, false, &whole);
    save(&whole, folder, "pieces", 102);
    for (size_t i = 0; i < 6; i++) {
        struct record other = { NULL, 0, 0 };
        by_pieces(PIECES[i / 2], i % 2 == 0, &other);
        HOLDS(other.length == whole.length && memcmp(other.text, whole.text, whole.length) == 0);
        free(other.text);
    }
    free(whole.text);
}

int main(int argc, char **argv)
{
    if (argc != 2) {
        fprintf(stderr, "records FOLDER\n");
        return 2;
    }
    folder = argv[1];
    each_call();
    limits_are_told();
    limits_that_are_not_the_usual_ones();
    calls_that_are_cut();
    when_it_begins();
    pieces_are_the_same();
    free(record.text);
    return end();
}

/* Runs scripts through the library, and compares each answer with what the script is to print. docs/RULES.md has the format of scripts and
 * of answers, in "Scripts".
 *
 *     scripts MOST_REQUESTS FIRST_REQUESTS NAME.script ..
 *     scripts --record FOLDER NAME.script ..
 *
 * Each script is run as it is, and then nothing is left of it. What is to take no memory asks for none. A script that makes at most
 * MOST_REQUESTS requests for memory is run again with each of them refused in turn: the call that finds no memory has changed nothing, and
 * is made once more. Of one that makes up to ten times as many, only the first FIRST_REQUESTS are refused in turn. Before a call is tried
 * again, the kernel is asked whether it can make progress, and that is held to what the trial does. With --record each script is run once while its
 * steps are recorded, and the records are written to FOLDER, for piperun --check. */
#define _GNU_SOURCE
#include "counted.h"
#include "records.h"
#include "script_text.h"

#include <limits.h>

enum { MOST_PARKED = 20000, MOST_KEPT_ENTRIES = 65536, MOST_NAMES = 20000 };

/* ---- What is known of a run ---- */

/* What is to be told of a call that waits, once it is done, and its room or entries. */
static struct parked {
    enum told told;
    size_t room;
    bindingclay_pollfd *entries;
    size_t entry_count;
} parked[MOST_PARKED];

/* How many calls have waited in this run, and the number of the first one in the kernel. The script counts from its own first one. */
static uint64_t parked_count, first_number;

/* The entries of the polls among them. */
static bindingclay_pollfd kept_entries[MOST_KEPT_ENTRIES];
static size_t kept_count;

/* The names that this run made. */
static const char *names[MOST_NAMES];
static size_t name_count;

/* How often a call of this run found no memory, and how often one that waits had none for its place in a queue. */
static long told_no_memory, waits_without_places;

/* Whether the steps of this run are recorded, which takes memory, and how many steps there were. */
static bool is_recorded;
static long steps;

/* ---- Calls ---- */

/* Notes a call that waits, of the words of its line. */
static void keep(enum told told)
{
    if (parked_count == MOST_PARKED || entry_count > MOST_KEPT_ENTRIES - kept_count) {
        printf("too many calls that wait for this test\n");
        exit(1);
    }
    struct parked *call = &parked[parked_count++];
    *call = (struct parked){ .told = told, .entries = &kept_entries[kept_count] };
    if (told == DATA)
        call->room = room_of(words[1]);
    if (told == MASKS) {
        call->entry_count = entry_count;
        memcpy(call->entries, entries, entry_count * sizeof *entries);
        kept_count += entry_count;
    }
}

/* The number that the kernel gave a call by that which the script gives it. */
static uint64_t in_kernel(const struct script *script, const char *word)
{
    return strtoull(word, NULL, 10) - script->limits.first_call + first_number;
}

/* How often a call that waited was tried again after it was told that it can make progress, and after it was told that it can't: in all runs. */
static long tried_in_time, tried_in_vain;

/* A call that was tried again got on exactly if that was told before: it was answered, or it took more bytes than it had taken before. */
static void got_on_as_told(uint64_t call_number, bool can, bindingclay_answer taken)
{
    bindingclay_answer taken_now = bindingclay_taken(clay, call_number);
    bool is_there = taken.kind == BINDINGCLAY_DONE;
    if (is_there)
        *(can ? &tried_in_time : &tried_in_vain) += 1;
    if (answer.kind == BINDINGCLAY_PARKED) {
        HOLDS(is_there && taken_now.kind == BINDINGCLAY_DONE && can == (taken_now.value > taken.value) && answer.moved == can);
    } else if (answer.kind == BINDINGCLAY_NO_MEMORY) {
        HOLDS(is_there && can && !answer.moved);
        DONE(taken_now, taken.value);
    } else {
        HOLDS(can && is_there == (answer.kind != BINDINGCLAY_NO_CALL) && !answer.moved);
        OTHER(taken_now, BINDINGCLAY_NO_CALL);
    }
}

static enum told resume(uint64_t call_number)
{
    static const struct parked none = { .told = NOTHING };
    uint64_t place = call_number - first_number;
    const struct parked *call = place < parked_count ? &parked[place] : &none;
    long granted = granted_before;
    bool can = bindingclay_can_progress(clay, call_number);
    bindingclay_answer taken = bindingclay_taken(clay, call_number);
    bindingclay_answer next = bindingclay_next_ready(clay, call_number);
    HOLDS((next.kind == BINDINGCLAY_DONE && next.value == call_number) == (can && taken.kind == BINDINGCLAY_DONE));
    HOLDS(granted_before == granted);
    if (call->told == MASKS) {
        entry_count = call->entry_count;
        memcpy(entries, call->entries, entry_count * sizeof *entries);
        answer = bindingclay_resume_poll(clay, call_number, entries, entry_count);
    } else {
        answer = bindingclay_resume(clay, call_number, into, call->room);
    }
    got_on_as_told(call_number, can, taken);
    return call->told;
}

/* Whether the call of these words makes a name where it is done. */
static bool makes_name(const char *call)
{
    return strcmp(call, "mkfifo") == 0 || (strcmp(call, "open") == 0 && (flags_at(OPEN_FLAGS, 2) & O_CREAT) != 0);
}

/* Notes what a new call leaves behind. */
static void note(const char *call, enum told told)
{
    /* it moved bytes exactly if it waits and has taken some */
    HOLDS(answer.moved == (answer.kind == BINDINGCLAY_PARKED && bindingclay_taken(clay, answer.value).value > 0));
    if (answer.kind == BINDINGCLAY_PARKED)
        keep(told);
    if (answer.kind != BINDINGCLAY_DONE || !makes_name(call))
        return;
    if (name_count == MOST_NAMES) {
        printf("too many names for this test\n");
        exit(1);
    }
    names[name_count++] = words[0];
}

/* Makes the call of a process; false where no call has this name. */
static bool begin(const struct line *line, enum told *told)
{
    for (size_t i = 0; i < sizeof CALLS / sizeof *CALLS; i++)
        if (line->count >= 2 + CALLS[i].words && strcmp(line->words[1], CALLS[i].name) == 0) {
            word_count = line->count - 2;
            memcpy(words, line->words + 2, (size_t)word_count * sizeof *words);
            *told = CALLS[i].make((uint32_t)number(line->words[0]));
            note(CALLS[i].name, *told);
            return true;
        }
    return false;
}

/* Does what a line asks; false where it is no line that this program knows. */
static bool make(const struct script *script, const struct line *line, enum told *told)
{
    char **line_words = line->words;
    if (strcmp(line_words[0], "start") == 0) {
        answer = bindingclay_start(clay);
        *told = PID;
    } else if (strcmp(line_words[0], "resume") == 0 && line->count == 2) {
        *told = resume(in_kernel(script, line_words[1]));
    } else if (strcmp(line_words[0], "interrupt") == 0 && line->count == 2) {
        answer = bindingclay_interrupt(clay, in_kernel(script, line_words[1]));
        *told = COUNT;
    } else if (strcmp(line_words[0], "file") == 0 && line->count == 2) {
        take_name(line_words[1]);
        answer = bindingclay_file_bytes(clay, bytes, byte_count, into, sizeof into);
        *told = FILE_DATA;
    } else {
        return begin(line, told);
    }
    return true;
}

/* ---- Want of memory ---- */

/* How many bytes at the front of into are looked at. */
enum { WATCHED = 64 };

/* Marks what a call may write. The entries of a poll are marked where they are taken from words. */
static void mark(void)
{
    memset(into, UNTOUCHED, WATCHED);
    ends = (bindingclay_ends){ -7, -8 };
    entry_count = 0;
}

static bool is_marked(void)
{
    for (size_t i = 0; i < WATCHED; i++)
        if (into[i] != UNTOUCHED)
            return false;
    for (size_t i = 0; i < entry_count; i++)
        if (entries[i].revents != UNWRITTEN)
            return false;
    return ends.read_end == -7 && ends.write_end == -8;
}

/* Whether a word is one of a list, which ends with a null. */
static bool is_one_of(const char *word, const char *const *list)
{
    while (*list != NULL && strcmp(word, *list) != 0)
        list++;
    return *list != NULL;
}

/* Whether the line that was just made is one that asks for no memory: an interrupt, a call that neither makes something new nor moves bytes,
 * and whatever is refused, except by a name, which is copied first. */
static bool asks_for_none(const struct line *line)
{
    static const char *const FRUGAL[] = { "close", "lseek", "getfl", "setfl", "getsz", "exit", NULL };
    static const char *const WITH_A_NAME[] = { "open", "mkfifo", "unlink", NULL };
    bool is_refused = answer.kind == BINDINGCLAY_FAULT || answer.kind == BINDINGCLAY_NO_PROCESS
        || answer.kind == BINDINGCLAY_NO_CALL || answer.kind == BINDINGCLAY_CALLS_SPENT;
    if (line->count < 2 || strcmp(line->words[0], "file") == 0)
        return false;
    return strcmp(line->words[0], "interrupt") == 0 || is_one_of(line->words[1], FRUGAL)
        || (is_refused && !is_one_of(line->words[1], WITH_A_NAME));
}

/* Does what a line asks, and once more where there was no memory for it. */
static bool make_at_last(const struct script *script, const struct line *line, enum told *told)
{
    mark();
    long granted = granted_before, refused_before = refused;
    bool is_known = make(script, line, told);
    /* a call waits all the same where there is no memory for its place in a queue */
    waits_without_places += refused != refused_before && answer.kind == BINDINGCLAY_PARKED;
    if (is_known && asks_for_none(line) && !is_recorded)
        HOLDS(granted_before == granted && answer.kind != BINDINGCLAY_NO_MEMORY);
    if (!is_known || answer.kind != BINDINGCLAY_NO_MEMORY)
        return is_known;
    told_no_memory++;
    OTHER(answer, BINDINGCLAY_NO_MEMORY);
    HOLDS(is_marked());
    return make(script, line, told);
}

/* ---- Runs ---- */

/* Whether the text of an answer is what is to be printed next. */
static bool is_wanted(const struct script *script, int line_number, size_t next)
{
    const char *wanted = next < script->wanted_count ? script->wanted[next] : "(nothing)";
    if (strcmp(text, wanted) == 0)
        return true;
    checks_failed++;
    printf("%s:%d: %.200s, and not %.200s\n", script->path, line_number, text, wanted);
    return false;
}

/* Makes the lines of a script. */
static void run(const struct script *script)
{
    parked_count = 0;
    kept_count = name_count = 0;
    shows_runs = script->shows_runs;
    size_t said = 0;
    bool is_known = true;
    steps = 0;
    for (size_t i = 0; i < script->line_count && is_known; i++) {
        const struct line *line = &script->lines[i];
        enum told told = NOTHING;
        is_known = make_at_last(script, line, &told);
        if (is_known)
            say_answer(told, answer.value - first_number + script->limits.first_call);
        else
            sprintf(text, "piperun: line %d: not a command", line->number);
        steps += is_known && strcmp(line->words[0], "file") != 0;
        if (!is_wanted(script, line->number, said++))
            return;
    }
    holds(script->path, 0, "nothing more is to be printed", said == script->wanted_count);
}

/* Ends all processes, and takes away each name that a run made. No call waits then. */
static void leave(const struct script *script)
{
    for (uint32_t pid = 1; pid <= script->limits.processes_max; pid++) {
        answer = bindingclay_exit(clay, pid);
        HOLDS(answer.kind == BINDINGCLAY_DONE || answer.kind == BINDINGCLAY_NO_PROCESS);
    }
    if (script->limits.processes_max == 0)
        return;
    DONE(bindingclay_start(clay), 1);
    for (size_t i = 0; i < name_count; i++) {
        take_name(names[i]);
        answer = bindingclay_unlink(clay, 1, bytes, byte_count);
        HOLDS(answer.kind == BINDINGCLAY_DONE || (answer.kind == BINDINGCLAY_FAULT && answer.error == ENOENT));
        FAULT(bindingclay_file_bytes(clay, bytes, byte_count, into, 0), ENOENT);
    }
    DONE(bindingclay_exit(clay, 1), 0);
    for (uint64_t i = 0; i < parked_count; i++)
        OTHER(bindingclay_interrupt(clay, first_number + i), BINDINGCLAY_NO_CALL);
}

/* Opens a kernel within the limits of a script, that keeps no memory for further bytes. A kernel gives such memory back before it says that there
 * is none, so with it fewer blocks would be left after a run in which a request is refused. */
static bool open_sparing(const struct script *script)
{
    bindingclay_limits limits = script->limits;
    limits.spare_max = 0;
    return bindingclay_open_within(&limits, &clay.kernel);
}

/* Runs a script on a new kernel, which is granted so many requests for memory, and then refused one. Answers how many were granted before a
 * refused one. */
static long run_with(const struct script *script, long granted)
{
    first_number = script->limits.first_call;
    told_no_memory = waits_without_places = 0;
    refuse(granted, 1);
    if (!open_sparing(script)) {
        told_no_memory++;
        if (!open_sparing(script)) {
            printf("bindingclay_open_within: false\n");
            exit(1);
        }
    }
    run(script);
    long requests = granted - granted_before;
    refuse_none();
    HOLDS(told_no_memory + waits_without_places == refused);
    leave(script);
    return requests;
}

/* Runs a script once more on the kernel of the last run, where enough numbers are left for its calls. */
static void run_again(const struct script *script)
{
    if (parked_count > (UINT64_MAX - script->limits.first_call) / 2)
        return;
    first_number += parked_count;
    run(script);
    leave(script);
}

/* The numbers of the command line. */
static long most_requests, first_requests;

/* How many of the requests of a script are refused in turn. */
static long to_be_refused(long requests)
{
    if (requests <= most_requests)
        return requests;
    return requests <= 10 * most_requests ? first_requests : 0;
}

/* Runs a script as it is, and then with requests for memory refused in turn. Answers how many it makes.
 *
 * A kernel keeps some blocks for what is to come, as many after each of these runs, and also after a second run on the same kernel. If a
 * run left a segment there, the next one would take another block in its place. */
static long try_script(const struct script *script)
{
    long before = atomic_load(&blocks_left);
    int failed = checks_failed;
    long requests = run_with(script, LONG_MAX);
    long kept = atomic_load(&blocks_left);
    if (checks_failed == failed)
        run_again(script);
    HOLDS(atomic_load(&blocks_left) == kept);
    bindingclay_free(clay);
    HOLDS(atomic_load(&blocks_left) == before);
    long last = to_be_refused(requests);
    for (long granted = 0; granted < last && checks_failed == failed; granted++) {
        run_with(script, granted);
        /* a queue that found no memory may have taken less than it would */
        long left = atomic_load(&blocks_left);
        HOLDS(refused == 1 && (waits_without_places == 0 ? left == kept : left <= kept));
        bindingclay_free(clay);
        HOLDS(atomic_load(&blocks_left) == before);
        if (checks_failed > failed)
            printf("that was with request %ld refused\n", granted + 1);
    }
    if (checks_failed > failed)
        printf("that was %s\n", script->path);
    return requests;
}

/* More bytes than piperun reads of one script. */
enum { TOO_LONG = 16777216 };

/* Runs scripts while their steps are recorded, and writes the records, each of which has a reply for each step. */
static int record_scripts(const char *folder, char **paths, int count)
{
    struct record record = { NULL, 0, 0 };
    int too_long = 0;
    is_recorded = true;
    for (int i = 0; i < count; i++) {
        struct script script = read_script(paths[i]);
        char name[32];
        snprintf(name, sizeof name, "script%d", i);
        first_number = script.limits.first_call;
        HOLDS(bindingclay_open_within(&script.limits, &clay.kernel));
        record.length = 0;
        DONE(bindingclay_record(clay, true), 0);
        run(&script);
        HOLDS(drain(clay, &record, 4096));
        bindingclay_free(clay);
        if (record.length <= TOO_LONG)
            save(&record, folder, name, steps);
        else
            too_long++;
        free_script(&script);
    }
    free(record.text);
    printf("%d recorded, %d of them too long for piperun\n", count, too_long);
    return end();
}

int main(int argc, char **argv)
{
    if (argc < 4) {
        printf("usage: scripts MOST_REQUESTS FIRST_REQUESTS NAME.script ..\n       scripts --record FOLDER NAME.script ..\n");
        return 2;
    }
    if (strcmp(argv[1], "--record") == 0)
        return record_scripts(argv[2], argv + 3, argc - 3);
    most_requests = strtol(argv[1], NULL, 10);
    first_requests = strtol(argv[2], NULL, 10);
    int whole = 0, in_part = 0;
    for (int i = 3; i < argc; i++) {
        struct script script = read_script(argv[i]);
        long requests = try_script(&script), last = to_be_refused(requests);
        whole += last == requests;
        in_part += last < requests && last > 0;
        free_script(&script);
    }
    HOLDS(tried_in_time > 0 && tried_in_vain > 0);
    printf("%d run; each request for memory refused in turn in %d of them, the first %ld in %d, and none in %d; calls tried again %ld times"
           " in time and %ld in vain\n",
        argc - 3, whole, first_requests, in_part, argc - 3 - whole - in_part, tried_in_time, tried_in_vain);
    return end();
}

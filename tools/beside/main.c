/* beside: a script of calls on the host's real pipes, FIFOs and files, and how its answers differ from those of piperun. */
#include "beside.h"

#include <signal.h>
#include <spawn.h>
#include <sys/wait.h>

extern char **environ;

/* so many differences are told, and the others only counted */
enum { MOST_TOLD = 100 };

static const char HELP[] = "Runs a script of piperun on the host's own pipes, FIFOs and files.\n"
    "\n"
    "usage: beside [--threads] [--diff] [--first-call N] [FILE]\n"
    "\n"
    "Without FILE it reads the script of standard input. Each process of the script is a process\n"
    "of the host, with 256 descriptors at most and files of 16777216 bytes at most. The script's\n"
    "files are in a new folder of TMPDIR, or of /dev/shm, which goes at the end.\n"
    "\n"
    "A call that waits is tried without waiting, and again when the script resumes it. An open of\n"
    "a FIFO waits in a process of its own. Replies have the form of piperun's. A call whose name\n"
    "has a slash or a NUL prints 'not made'.\n"
    "\n"
    "  --threads       a call that waits blocks in a thread, and goes on as soon as it can\n"
    "  --diff          prints where the host answers otherwise than piperun, and the row of\n"
    "                  docs/LINUX.md that explains it. The program is that of PIPERUN, or piperun.\n"
    "  --first-call N  the number of the first call that waits, without it 1\n"
    "  -h, --help      prints this\n"
    "\n"
    "Status: 0 good; 1 the script, the host or piperun can't be asked, or nothing can be written;\n"
    "2 a bad command line; 3 a line that is no line of a script, or a script that is too long;\n"
    "4 no memory; 5 a first difference that no row explains.\n";

struct wishes {
    bool in_threads, diff;
    const char *file;
    uint64_t first_call;
};

/* The lines that the host prints, with the lines of the script that they answer. */
static struct told {
    struct line line;
    char *text;
} *told;
static size_t told_count, told_room;

static bool print(const struct line *line, const char *text)
{
    (void)line;
    return puts(text) >= 0 && fflush(stdout) == 0;
}

static bool note(const struct line *line, const char *text)
{
    if (told_count == told_room) {
        told_room = 2 * told_room + 64;
        struct told *longer = realloc(told, told_room * sizeof *told);
        if (longer == NULL)
            return false;
        told = longer;
    }
    told[told_count] = (struct told){ *line, strdup(text) };
    return told[told_count++].text != NULL;
}

static enum status complain(const char *what, enum status status)
{
    fprintf(stderr, "beside: %s\n", what);
    return status;
}

static bool take_count(const char *text, uint64_t *value)
{
    char *end;
    errno = 0;
    *value = strtoull(text, &end, 10);
    return errno == 0 && text[0] >= '0' && text[0] <= '9' && *end == '\0';
}

/* The words of the command line. False if they are bad. */
static bool take_words(int count, char **words, struct wishes *wishes)
{
    bool behind = false;
    for (int i = 1; i < count; i++) {
        const char *word = words[i];
        if (!behind && strcmp(word, "--") == 0) {
            behind = true;
        } else if (!behind && strcmp(word, "--threads") == 0) {
            wishes->in_threads = true;
        } else if (!behind && strcmp(word, "--diff") == 0) {
            wishes->diff = true;
        } else if (!behind && strcmp(word, "--first-call") == 0) {
            if (++i == count || !take_count(words[i], &wishes->first_call))
                return false;
        } else if ((!behind && word[0] == '-' && word[1] != '\0') || wishes->file != NULL) {
            return false;
        } else {
            wishes->file = word;
        }
    }
    return true;
}

/* Reads a script, up to a byte more than it may have. */
static enum status read_script(const char *path, struct script *script)
{
    FILE *file = path == NULL ? stdin : fopen(path, "rb");
    if (file == NULL)
        return complain("cannot read", CANNOT);
    script->text = malloc(MOST_SCRIPT + 1);
    if (script->text == NULL)
        return complain("no memory", NO_MEMORY);
    script->length = fread(script->text, 1, MOST_SCRIPT + 1, file);
    bool failed = ferror(file) != 0;
    if (file != stdin)
        fclose(file);
    if (failed)
        return complain("cannot read", CANNOT);
    if (script->length > MOST_SCRIPT)
        return complain("script longer than 16777216 bytes", BAD_LINE);
    script->version_2 = names_version_2(script->text, script->length);
    return GOOD;
}

/* Tells how a run ended. */
static enum status ended(enum status status, const struct line *line)
{
    if (status == BAD_LINE)
        fprintf(stderr, "beside: line %zu: not a command\n", line->number);
    else if (status == NO_MEMORY)
        complain("no memory", status);
    else if (status == CANNOT)
        complain("cannot write, or the host can't be asked", status);
    return status;
}

/* Runs piperun on the script. What it prints is in a file without a name. */
static FILE *run_piperun(const struct script *script)
{
    char number[32];
    char *given = getenv("PIPERUN"), *program = given != NULL && given[0] != '\0' ? given : "piperun";
    char *words[] = { program, "--first-call", number, NULL };
    FILE *from = tmpfile(), *to = tmpfile();
    posix_spawn_file_actions_t actions;
    pid_t pid;
    int status = 1;
    snprintf(number, sizeof number, "%" PRIu64, script->first_call);
    if (from == NULL || to == NULL || fwrite(script->text, 1, script->length, from) != script->length || fflush(from) != 0)
        return NULL;
    rewind(from);
    posix_spawn_file_actions_init(&actions);
    posix_spawn_file_actions_adddup2(&actions, fileno(from), 0);
    posix_spawn_file_actions_adddup2(&actions, fileno(to), 1);
    bool ran = posix_spawnp(&pid, program, &actions, NULL, words, environ) == 0 && waitpid(pid, &status, 0) == pid;
    posix_spawn_file_actions_destroy(&actions);
    fclose(from);
    rewind(to);
    /* a bad line is told by both */
    return ran && WIFEXITED(status) && (WEXITSTATUS(status) == GOOD || WEXITSTATUS(status) == BAD_LINE) ? to : NULL;
}

/* The next line of a file, without its end; null behind the last. */
static const char *next_of(FILE *file, char **line, size_t *room)
{
    ssize_t count = getline(line, room, file);
    if (count <= 0)
        return NULL;
    if ((*line)[count - 1] == '\n')
        (*line)[count - 1] = '\0';
    return *line;
}

static void tell_replies(const char *here, const char *host)
{
    printf("  here   %.200s%s\n", here, strlen(here) > 200 ? ".." : "");
    printf("  host   %.200s%s\n", host, strlen(host) > 200 ? ".." : "");
}

/* The line of the call that a line resumes or interrupts, as both parked it under its number; null if it does neither. */
static const struct line *begun_at(const struct script *script, size_t answer)
{
    struct request request = asked_by(&told[answer].line, script->version_2);
    char wanted[40];
    if (request.call != RESUME && request.call != INTERRUPT)
        return NULL;
    snprintf(wanted, sizeof wanted, "parked %" PRIu64, request.number);
    while (answer-- > 0)
        if (strcmp(told[answer].text, wanted) == 0 && asked_by(&told[answer].line, script->version_2).call != RESUME)
            return &told[answer].line;
    return NULL;
}

/* Notes what a line did, for what comes behind it. */
static void note_before(struct difference *difference, const struct line *line, const char *here, const char *host)
{
    struct request request = asked_by(line, difference->script->version_2);
    bool waits = strncmp(host, "parked ", 7) == 0;
    difference->large_waited |= waits && request.call == WRITE && request.byte_count > PIPE_BUF_HERE;
    difference->open_waited |= waits && request.call == OPEN;
    if (strcmp(here, "calls spent") == 0 || strcmp(host, "calls spent") == 0)
        difference->spent = true;
}

/* Tells a difference. What is behind the first may follow from it, so the first alone has to be explained. */
static bool tell_difference(const struct difference *difference, bool is_first)
{
    const struct line *line = difference->line;
    printf("line %zu: %.*s\n", line->number, (int)(line->length < 200 ? line->length : 200), line->at);
    tell_replies(difference->here, difference->host);
    const char *row = row_of(difference);
    if (row != NULL)
        printf("  docs/LINUX.md: %s\n", row);
    else
        puts(is_first ? "  no row of docs/LINUX.md explains this" : "  it may follow from a difference above");
    return row != NULL || !is_first;
}

static enum status tell_differences(const struct script *script, FILE *output)
{
    struct difference difference = { .script = script };
    char *line = NULL;
    size_t room = 0, others = 0;
    enum status status = GOOD;
    for (size_t i = 0; i < told_count; i++) {
        const char *here = next_of(output, &line, &room), *host = told[i].text;
        difference.line = &told[i].line;
        difference.here = here == NULL ? "" : here;
        difference.host = host;
        if (strcmp(difference.here, host) != 0 && strcmp(host, "not made") != 0) {
            difference.begun_at = begun_at(script, i);
            if (others < MOST_TOLD && !tell_difference(&difference, others == 0))
                status = UNEXPLAINED;
            others++;
        }
        note_before(&difference, &told[i].line, difference.here, host);
    }
    printf("%zu answers, %zu of them otherwise on the host\n", told_count, others);
    free(line);
    return fflush(stdout) == 0 ? status : CANNOT;
}

static enum status diff(const struct script *script, bool in_threads)
{
    struct line line = { .number = 0 };
    FILE *output = run_piperun(script);
    if (output == NULL)
        return complain("piperun can't be asked: PIPERUN is to name it", CANNOT);
    enum status ran = ended(run_on_host(script, in_threads, note, &line), &line);
    enum status status = ran == GOOD || ran == BAD_LINE ? tell_differences(script, output) : ran;
    for (size_t i = 0; i < told_count; i++)
        free(told[i].text);
    free(told);
    fclose(output);
    return status == GOOD ? ran : status;
}

int main(int count, char **words)
{
    struct wishes wishes = { .first_call = 1 };
    struct script script = { .length = 0 };
    for (int i = 1; i < count && strcmp(words[i], "--") != 0; i++)
        if (strcmp(words[i], "-h") == 0 || strcmp(words[i], "--help") == 0)
            return fputs(HELP, stdout) < 0 || fflush(stdout) != 0 ? CANNOT : GOOD;
    if (!take_words(count, words, &wishes))
        return complain("bad command line", BAD_COMMAND);
    enum status status = read_script(wishes.file, &script);
    script.first_call = wishes.first_call;
    signal(SIGPIPE, SIG_IGN);
    if (status == GOOD && wishes.diff) {
        status = diff(&script, wishes.in_threads);
    } else if (status == GOOD) {
        struct line line = { .number = 0 };
        status = ended(run_on_host(&script, wishes.in_threads, print, &line), &line);
    }
    free(script.text);
    return status;
}

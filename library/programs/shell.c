/* A small shell: pipelines of commands with redirections to files and FIFOs, as fork, dup2, close and exec make them. A command is a child, and exec
 * calls the function of its name. It prints the status of each line, and at the end what is in some files. */
#include "filters.h"

enum { WORDS = 6, COMMANDS = 40, LONGEST = 80 };

/* A command of a pipeline: its words, the names to which it is redirected, and the descriptors that it gets as 0 and 1, if they aren't below 0. */
struct command {
    char line[LONGEST];
    int count;
    char *words[WORDS + 1];
    char *from, *to;
    int input, output;
    /* The read end of the pipe that it writes, or a number below 0. */
    int not_its_own;
    struct child child;
};

/* The commands of all lines. Those of the background are waited for from first_left on. */
static struct command commands[COMMANDS];
static int made, first_left;

static const struct {
    const char *name;
    int (*run)(struct child *, int, char **);
} PROGRAMS[] = {
    { "cat", main_of_cat }, { "draw", main_of_draw }, { "head", main_of_head }, { "mkfifo", main_of_mkfifo }, { "sort", main_of_sort },
    { "tee", main_of_tee }, { "tr", main_of_tr }, { "uniq", main_of_uniq }, { "wc", main_of_wc },
};

static void read_command(struct command *command, const char *text, size_t size)
{
    char **place = NULL, *rest;
    snprintf(command->line, sizeof command->line, "%.*s", (int)size, text);
    for (char *word = strtok_r(command->line, " ", &rest); word != NULL; word = strtok_r(NULL, " ", &rest)) {
        if (strcmp(word, "<") == 0 || strcmp(word, ">") == 0) {
            place = *word == '<' ? &command->from : &command->to;
        } else if (place != NULL) {
            *place = word;
            place = NULL;
        } else if (command->count < WORDS) {
            command->words[command->count++] = word;
        }
    }
}

/* Makes a descriptor of a child its number 0 or 1. Returns false if there is none, as an open failed. */
static bool move(struct child *me, int fd, int target)
{
    return fd >= 0 && c_dup2(me, fd, target) == target && c_close(me, fd) == 0;
}

/* What a child does: it sets its descriptors, and becomes the program. */
static int run_command(struct child *me, void *argument)
{
    struct command *command = argument;
    if (command->not_its_own >= 0)
        c_close(me, command->not_its_own);
    if (command->input >= 0 && !move(me, command->input, 0))
        return 1;
    if (command->output >= 0 && !move(me, command->output, 1))
        return 1;
    if (command->from != NULL && !move(me, c_open(me, command->from, O_RDONLY), 0))
        return 1;
    if (command->to != NULL && !move(me, c_open(me, command->to, O_WRONLY | O_CREAT | O_TRUNC), 1))
        return 1;
    for (size_t i = 0; i < sizeof PROGRAMS / sizeof *PROGRAMS && command->count > 0; i++)
        if (strcmp(command->words[0], PROGRAMS[i].name) == 0)
            return PROGRAMS[i].run(me, command->count, command->words);
    return 127;
}

/* Waits for all children, and tells the status of the last one. */
static int wait_for_all(void)
{
    int status = 0;
    for (; first_left < made; first_left++)
        status = end_of_child(&commands[first_left].child);
    return status;
}

/* Starts the commands of a line, each with a pipe to the next one, and waits for them unless the line ends with '&'. */
static int run_line(const char *line)
{
    bool is_last = false;
    size_t size = strlen(line);
    bool is_behind = line[size - 1] == '&';
    for (int input = -1; !is_last && made < COMMANDS; line += strcspn(line, "|&") + 1) {
        struct command *command = &commands[made++];
        int ends[2] = { -1, -1 };
        is_last = line[strcspn(line, "|&")] != '|';
        read_command(command, line, strcspn(line, "|&"));
        if (!is_last)
            p_pipe2(ends, 0);
        command->input = input;
        command->output = ends[1];
        command->not_its_own = ends[0];
        start_child(&command->child, run_command, command);
        if (input >= 0)
            p_close(input);
        if (!is_last)
            p_close(ends[1]);
        input = ends[0];
    }
    return is_behind ? 0 : wait_for_all();
}

static void show(const char *name)
{
    char bytes[BUFFER];
    long count;
    int fd = p_open(name, O_RDONLY);
    printf("%s:\n", name);
    while ((count = p_read(fd, bytes, BUFFER)) > 0)
        fwrite(bytes, 1, (size_t)count, stdout);
    p_close(fd);
}

int main(void)
{
    static const char *const LINES[] = {
        "draw 3000 > words", "cat words | tr a-z A-Z | sort | uniq -c > counts", "sort < words | head 5 > first",
        "cat words words | tee copy | wc > size", "wc < copy > size_of_copy", "mkfifo queue", "sort < queue | uniq -c > by_queue &",
        "cat words copy > queue", "draw 1000000 | head 1 > few", "cat nothing > empty", "spell words",
        "cat words | cat | cat | cat | cat | cat | tr 0-9 a-j | sort | uniq -c | wc > long_way",
    };
    static const char *const FILES[] = { "counts", "first", "size", "size_of_copy", "by_queue", "few", "empty", "long_way" };
    static const char *const OTHERS[] = { "words", "copy", "queue", "screen" };
    begin_calls();
    /* a process of ours begins without descriptors, and a shell has three */
    for (int fd = p_open("screen", O_RDWR | O_CREAT); fd < 2; fd = p_open("screen", O_RDWR))
        ;
    for (size_t i = 0; i < sizeof LINES / sizeof *LINES; i++) {
        int status = run_line(LINES[i]);
        printf("%s: %d\n", LINES[i], status);
        fflush(stdout);
    }
    wait_for_all();
    for (size_t i = 0; i < sizeof FILES / sizeof *FILES; i++) {
        show(FILES[i]);
        p_unlink(FILES[i]);
    }
    for (size_t i = 0; i < sizeof OTHERS / sizeof *OTHERS; i++)
        p_unlink(OTHERS[i]);
    end_calls();
    return 0;
}

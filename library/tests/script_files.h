/* The files of a script: NAME.script, what it prints, NAME.out, and NAME.args where its limits aren't the usual ones. A file that isn't
 * there, or isn't as it should be, ends the program. */
#ifndef SCRIPT_FILES_H
#define SCRIPT_FILES_H

#include "check.h"

enum { MOST_WORDS = 400, MOST_PIECE_BYTES = BINDINGCLAY_MOST_FILE_BYTES };

/* A line of a script that isn't blank and no comment, in words. */
struct line {
    int number;
    int count;
    char **words;
};

struct script {
    char *path;
    /* Those within which it is run, with the number of its first call that waits. */
    bindingclay_limits limits;
    /* Whether it is of version 2. Its first line says so, and asks nothing. */
    bool shows_runs;
    struct line *lines;
    size_t line_count;
    /* What it is to print, line by line. */
    char **wanted;
    size_t wanted_count;
    /* What the lines are in. */
    char *text, *wanted_text;
    char **words;
};

static void give_up(const char *path, const char *why)
{
    printf("%s: %s\n", path, why);
    exit(1);
}

/* A text that grows, ended by a NUL. */
struct growing {
    char *text;
    size_t length, room;
};

/* Makes it longer, and says where the new bytes go. */
static char *longer(struct growing *all, size_t count)
{
    if (all->room - all->length <= count) {
        all->room = 2 * (all->length + count + 1);
        all->text = needed(realloc(all->text, all->room));
    }
    char *end = all->text + all->length;
    all->length += count;
    all->text[all->length] = '\0';
    return end;
}

static void add(struct growing *all, const char *bytes, size_t count)
{
    memcpy(longer(all, count), bytes, count);
}

/* All of a file; null where there is none. */
static char *file_text(const char *path)
{
    FILE *file = fopen(path, "rb");
    if (file == NULL) {
        if (errno != ENOENT)
            give_up(path, "cannot open");
        return NULL;
    }
    static char buffer[65536];
    struct growing all = { NULL, 0, 0 };
    add(&all, "", 0);
    for (size_t got; (got = fread(buffer, 1, sizeof buffer, file)) > 0;)
        add(&all, buffer, got);
    if (ferror(file))
        give_up(path, "cannot read");
    fclose(file);
    return all.text;
}

/* The next line of a text, without its line feed; null behind the last. */
static char *next_line(char **rest)
{
    if (**rest == '\0')
        return NULL;
    char *line = *rest;
    size_t length = strcspn(line, "\n");
    *rest = line + length + (line[length] == '\n');
    line[length] = '\0';
    return line;
}

static size_t lines_in(const char *text)
{
    size_t count = 1;
    for (; *text != '\0'; text++)
        count += *text == '\n';
    return count;
}

/* ---- NAME.script ---- */

static int split(const char *path, char *line, char **line_words)
{
    int count = 0;
    for (char *word = strtok(line, " \t\r"); word != NULL; word = strtok(NULL, " \t\r")) {
        if (count == MOST_WORDS)
            give_up(path, "too many words for this test");
        line_words[count++] = word;
    }
    return count;
}

/* Whether the first line of a script is that of version 2, of which a carriage return may stand at the end. */
static bool names_version_2(const char *text)
{
    static const char HEADER[] = "piperun 2";
    size_t length = strcspn(text, "\n");
    if (length > 0 && text[length - 1] == '\r')
        length--;
    return length == sizeof HEADER - 1 && memcmp(text, HEADER, length) == 0;
}

static void take_lines(struct script *script)
{
    char *rest = script->text;
    script->shows_runs = names_version_2(rest);
    script->lines = needed(malloc(lines_in(rest) * sizeof *script->lines));
    /* a word has a byte at least, and is parted from the next one */
    script->words = needed(malloc((strlen(rest) / 2 + 1) * sizeof *script->words));
    script->line_count = 0;
    char **words = script->words;
    int number = 1;
    for (char *line; (line = next_line(&rest)) != NULL; number++) {
        if (number == 1 && script->shows_runs)
            continue;
        int count = split(script->path, line, words);
        if (count == 0 || words[0][0] == '#')
            continue;
        script->lines[script->line_count++] = (struct line){ number, count, words };
        words += count;
    }
}

/* ---- NAME.out: the bytes of a line data or file may be pieces joined by +, each digits or N*hh. Of a script of version 2 they are what it
 * prints, and stay as they are ---- */

static bool are_digits(const char *word, size_t length)
{
    return length > 0 && length % 2 == 0 && strspn(word, "0123456789abcdefABCDEF") >= length;
}

/* Adds the digits of a piece; false where it is malformed. */
static bool add_piece(struct growing *all, const char *piece, size_t length)
{
    const char *star = memchr(piece, '*', length);
    if (star == NULL) {
        if (!are_digits(piece, length))
            return false;
        add(all, piece, length);
        return true;
    }
    size_t digits = (size_t)(star - piece);
    unsigned long times = strtoul(piece, NULL, 10);
    if (digits == 0 || strspn(piece, "0123456789") != digits || times > MOST_PIECE_BYTES)
        return false;
    if (length != digits + 3 || !are_digits(star + 1, 2))
        return false;
    char *end = longer(all, 2 * times);
    for (size_t i = 0; i < 2 * times; i++)
        end[i] = star[1 + i % 2];
    return true;
}

/* Adds a line, of version 1 with all its digits written out; false where it is malformed. */
static bool add_line(struct growing *all, const char *line, bool shows_runs)
{
    bool has_bytes = strncmp(line, "data ", 5) == 0 || strncmp(line, "file ", 5) == 0;
    if (shows_runs || !has_bytes || strcmp(line + 5, "-") == 0) {
        add(all, line, strlen(line));
        return true;
    }
    add(all, line, 5);
    for (line += 5;; line++) {
        size_t length = strcspn(line, "+");
        if (!add_piece(all, line, length))
            return false;
        line += length;
        if (*line == '\0')
            return true;
    }
}

static void take_wanted(struct script *script, const char *path)
{
    char *text = file_text(path), *rest = text;
    if (text == NULL)
        give_up(path, "no such file");
    size_t most = lines_in(text);
    struct growing all = { NULL, 0, 0 };
    add(&all, "", 0);
    for (char *line; (line = next_line(&rest)) != NULL; add(&all, "\n", 1))
        if (!add_line(&all, line, script->shows_runs))
            give_up(path, "a malformed piece");
    free(text);
    script->wanted_text = rest = all.text;
    script->wanted = needed(malloc(most * sizeof *script->wanted));
    script->wanted_count = 0;
    for (char *line; (line = next_line(&rest)) != NULL;)
        script->wanted[script->wanted_count++] = line;
}

/* ---- NAME.args: options of piperun and their numbers, a word a line ---- */

static const struct {
    const char *option;
    size_t field;
} LIMITS[] = { { "--first-call", offsetof(bindingclay_limits, first_call) },
    { "--descriptors-max", offsetof(bindingclay_limits, descriptors_max) },
    { "--descriptions-max", offsetof(bindingclay_limits, descriptions_max) },
    { "--processes-max", offsetof(bindingclay_limits, processes_max) },
    { "--waiting-max", offsetof(bindingclay_limits, waiting_calls) },
    { "--waiting-of-each", offsetof(bindingclay_limits, waiting_of_each) } };

/* The limit that an option sets, or null. */
static uint64_t *limit_of(bindingclay_limits *limits, const char *option)
{
    for (size_t i = 0; i < sizeof LIMITS / sizeof *LIMITS; i++)
        if (strcmp(LIMITS[i].option, option) == 0)
            return (uint64_t *)(void *)((char *)limits + LIMITS[i].field);
    return NULL;
}

static void take_limits(struct script *script, const char *path)
{
    char *text = file_text(path), *rest = text;
    script->limits = (bindingclay_limits)BINDINGCLAY_LIMITS;
    if (text == NULL)
        return;
    for (const char *option; (option = next_line(&rest)) != NULL;) {
        uint64_t *limit = limit_of(&script->limits, option);
        const char *number = next_line(&rest);
        if (limit == NULL || number == NULL)
            give_up(path, "not options that this test knows, each with a number");
        errno = 0;
        *limit = strtoull(number, NULL, 10);
        if (errno != 0 || *number == '\0' || number[strspn(number, "0123456789")] != '\0')
            give_up(path, "not a number of 64 bits");
    }
    free(text);
}

/* ---- All of them ---- */

/* The script of a path, NAME.script. */
static inline struct script read_script(const char *path)
{
    size_t length = strlen(path);
    if (length < 7 || strcmp(path + length - 7, ".script") != 0)
        give_up(path, "not a script");
    char *beside = needed(malloc(length + 1));
    struct script script = { .path = strcpy(needed(malloc(length + 1)), path), .text = file_text(path) };
    if (script.text == NULL)
        give_up(path, "no such file");
    memcpy(beside, path, length + 1);
    take_lines(&script);
    strcpy(beside + length - 7, ".out");
    take_wanted(&script, beside);
    strcpy(beside + length - 7, ".args");
    take_limits(&script, beside);
    free(beside);
    return script;
}

static inline void free_script(struct script *script)
{
    free(script->path);
    free(script->text);
    free(script->lines);
    free(script->words);
    free(script->wanted_text);
    free(script->wanted);
}

#endif

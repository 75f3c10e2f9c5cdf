/* Small programs of a shell, as functions. Each reads descriptor 0 and writes descriptor 1 of the child that runs it, and returns its status. */
#ifndef FILTERS_H
#define FILTERS_H

#include "children.h"

enum { LINE = 64, BUFFER = 4096, MOST_LINES = 20000 };

/* What a program reads from, and what it has read and not yet given. */
struct input {
    struct child *me;
    char bytes[BUFFER];
    size_t first, behind;
};

/* The next line of descriptor 0, without its end. Returns false behind the last one. */
static bool next_line(struct input *input, char *line)
{
    for (size_t length = 0;; length++) {
        if (input->first == input->behind) {
            ssize_t count = c_read(input->me, 0, input->bytes, BUFFER);
            if (count <= 0)
                return false;
            input->first = 0;
            input->behind = (size_t)count;
        }
        line[length] = input->bytes[input->first++];
        if (line[length] == '\n' || length == LINE - 1) {
            line[length] = '\0';
            return true;
        }
    }
}

/* Writes all bytes. Returns false if nobody reads them. */
static bool put(struct child *me, int fd, const char *bytes, size_t size)
{
    while (size > 0) {
        ssize_t count = c_write(me, fd, bytes, size);
        if (count < 0)
            return false;
        bytes += count;
        size -= (size_t)count;
    }
    return true;
}

static bool put_line(struct child *me, const char *line)
{
    char bytes[LINE + 1];
    int size = snprintf(bytes, sizeof bytes, "%s\n", line);
    return put(me, 1, bytes, (size_t)size);
}

/* Copies one descriptor to descriptor 1, and to another one if it isn't below 0. */
static int copy(struct child *me, int from, int also_to)
{
    char bytes[BUFFER];
    ssize_t count;
    while ((count = c_read(me, from, bytes, BUFFER)) > 0)
        if (!put(me, 1, bytes, (size_t)count) || (also_to >= 0 && !put(me, also_to, bytes, (size_t)count)))
            return 1;
    return count < 0;
}

/* cat [NAME]..: copies files, or descriptor 0. */
static int main_of_cat(struct child *me, int count, char **words)
{
    int status = count == 1 ? copy(me, 0, -1) : 0;
    for (int i = 1; i < count && status == 0; i++) {
        int fd = c_open(me, words[i], O_RDONLY);
        status = fd < 0 ? 1 : copy(me, fd, -1);
        c_close(me, fd);
    }
    return status;
}

/* tee NAME: copies descriptor 0 to a file too. */
static int main_of_tee(struct child *me, int count, char **words)
{
    int fd = count == 2 ? c_open(me, words[1], O_WRONLY | O_CREAT | O_TRUNC) : -1;
    int status = fd < 0 ? 1 : copy(me, 0, fd);
    c_close(me, fd);
    return status;
}

/* tr a-z A-Z: turns each letter of a range into that of another one. */
static int main_of_tr(struct child *me, int count, char **words)
{
    char bytes[BUFFER];
    ssize_t size;
    if (count != 3 || strlen(words[1]) != 3 || strlen(words[2]) != 3)
        return 2;
    while ((size = c_read(me, 0, bytes, BUFFER)) > 0) {
        for (ssize_t i = 0; i < size; i++)
            if (bytes[i] >= words[1][0] && bytes[i] <= words[1][2])
                bytes[i] = (char)(bytes[i] - words[1][0] + words[2][0]);
        if (!put(me, 1, bytes, (size_t)size))
            return 1;
    }
    return size < 0;
}

static int compared(const void *one, const void *other)
{
    return strcmp(one, other);
}

/* sort: the lines in order. */
static int main_of_sort(struct child *me, int count, char **words)
{
    struct input input = { .me = me };
    char (*all)[LINE] = malloc((size_t)(MOST_LINES + 1) * LINE);
    int lines = 0, status = all == NULL || count != 1;
    (void)words;
    while (status == 0 && lines < MOST_LINES && next_line(&input, all[lines]))
        lines++;
    if (status == 0)
        qsort(all, (size_t)lines, LINE, compared);
    for (int i = 0; i < lines && status == 0; i++)
        status = !put_line(me, all[i]);
    free(all);
    return status;
}

/* uniq -c: each line that differs from the one before, behind how often it came in a row. */
static int main_of_uniq(struct child *me, int count, char **words)
{
    struct input input = { .me = me };
    char last[LINE] = "", line[LINE], told[LINE + 24];
    int times = 0;
    bool is_more = count == 2 && strcmp(words[1], "-c") == 0;
    int status = is_more ? 0 : 2;
    while (is_more && status == 0) {
        is_more = next_line(&input, line);
        if (times > 0 && (!is_more || strcmp(line, last) != 0)) {
            snprintf(told, sizeof told, "%d %s", times, last);
            status = !put_line(me, told);
            times = 0;
        }
        strcpy(last, line);
        times++;
    }
    return status;
}

/* wc: how many lines, words and bytes there are. */
static int main_of_wc(struct child *me, int count, char **words)
{
    struct input input = { .me = me };
    char line[LINE], told[LINE];
    long lines = 0, all_words = 0, bytes = 0;
    (void)count, (void)words;
    for (; next_line(&input, line); lines++) {
        bytes += (long)strlen(line) + 1;
        for (const char *place = line; *place != '\0'; place++)
            all_words += *place != ' ' && (place == line || place[-1] == ' ');
    }
    snprintf(told, sizeof told, "%ld %ld %ld", lines, all_words, bytes);
    return !put_line(me, told);
}

/* head COUNT: the first lines. It leaves without reading the others. */
static int main_of_head(struct child *me, int count, char **words)
{
    struct input input = { .me = me };
    char line[LINE];
    int status = 0;
    for (int left = count == 2 ? atoi(words[1]) : 0; left > 0 && status == 0 && next_line(&input, line); left--)
        status = !put_line(me, line);
    return status;
}

/* draw COUNT: lines that are drawn, the same each time. */
static int main_of_draw(struct child *me, int count, char **words)
{
    char line[LINE];
    uint32_t random = 1;
    int status = 0;
    for (int left = count == 2 ? atoi(words[1]) : 0; left > 0 && status == 0; left--) {
        random = random * 1664525 + 1013904223;
        snprintf(line, sizeof line, "word %u %s", (random >> 20) % 20, random >> 31 != 0 ? "and more" : "alone");
        status = !put_line(me, line);
    }
    return status;
}

static int main_of_mkfifo(struct child *me, int count, char **words)
{
    return count != 2 || c_mkfifo(me, words[1]) != 0;
}

#endif

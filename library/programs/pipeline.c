/* A pipeline of filters, each a thread: cat | tr a-z A-Z | sort | uniq -c | wc, over lines that are drawn. A number as its argument is how many
 * lines: 6,810,000 are 100 MiB, and take 440 MB of memory to sort. It prints the counts of the lines, what wc counts, and the bytes that tr read. */
#include "calls.h"

enum { LINE = 64, BUFFER = 5000 };

static long lines = 20000, through;

/* What a filter reads from and writes to, and what it has read and not yet given. */
struct filter {
    int from, to;
    char bytes[BUFFER];
    size_t first, behind;
};

/* The next line of a filter's input, without its end. Returns false behind the last one. */
static bool next_line(struct filter *filter, char *line)
{
    for (size_t length = 0;; length++) {
        if (filter->first == filter->behind) {
            filter->first = 0;
            filter->behind = (size_t)p_read(filter->from, filter->bytes, BUFFER);
            if (filter->behind == 0)
                return false;
        }
        line[length] = filter->bytes[filter->first++];
        if (line[length] == '\n' || length == LINE - 1) {
            line[length] = '\0';
            return true;
        }
    }
}

/* Writes a line: what it begins with, a number if that isn't below 0, and what is behind it. */
static void put_line(const struct filter *filter, const char *begin, long number, const char *behind)
{
    char bytes[2 * LINE], digits[24] = "";
    if (number >= 0)
        snprintf(digits, sizeof digits, "%ld ", number);
    int size = snprintf(bytes, sizeof bytes, "%s%s%s\n", begin, digits, behind);
    p_write(filter->to, bytes, (size_t)size);
}

static void *run_cat(void *argument)
{
    struct filter *filter = argument;
    uint32_t random = 1;
    for (long i = 0; i < lines; i++) {
        random = random * 1664525 + 1013904223;
        put_line(filter, "word ", (long)(random >> 20) % 100, random >> 31 ? "and more" : "alone");
    }
    p_close(filter->to);
    return NULL;
}

static void *run_tr(void *argument)
{
    struct filter *filter = argument;
    long count;
    while ((count = p_read(filter->from, filter->bytes, BUFFER)) > 0) {
        for (long i = 0; i < count; i++)
            if (filter->bytes[i] >= 'a' && filter->bytes[i] <= 'z')
                filter->bytes[i] += 'A' - 'a';
        p_write(filter->to, filter->bytes, (size_t)count);
        through += count;
    }
    p_close(filter->to);
    return NULL;
}

static int compared(const void *one, const void *other)
{
    return strcmp(one, other);
}

static void *run_sort(void *argument)
{
    struct filter *filter = argument;
    size_t count = 0;
    char (*all)[LINE] = malloc((size_t)lines * LINE + LINE);
    if (all == NULL)
        must(-1, "memory");
    while (next_line(filter, all[count]))
        count++;
    qsort(all, count, LINE, compared);
    for (size_t i = 0; i < count; i++)
        put_line(filter, "", -1, all[i]);
    free(all);
    p_close(filter->to);
    return NULL;
}

static void *run_uniq(void *argument)
{
    struct filter *filter = argument;
    char last[LINE] = "", line[LINE];
    long count = 0;
    while (next_line(filter, line)) {
        if (count > 0 && strcmp(line, last) != 0) {
            put_line(filter, "", count, last);
            count = 0;
        }
        strcpy(last, line);
        count++;
    }
    if (count > 0)
        put_line(filter, "", count, last);
    p_close(filter->to);
    return NULL;
}

int main(int count, char **words)
{
    static void *(*const RUNS[])(void *) = { run_cat, run_tr, run_sort, run_uniq };
    enum { FILTERS = 4 };
    static struct filter filters[FILTERS + 1];
    pthread_t threads[FILTERS];
    char line[LINE];
    long all = 0, bytes = 0;
    lines = count > 1 ? atol(words[1]) : lines;
    begin_calls();
    for (int i = 0; i < FILTERS; i++) {
        int ends[2];
        p_pipe2(ends, 0);
        filters[i].to = ends[1];
        filters[i + 1].from = ends[0];
    }
    for (int i = 0; i < FILTERS; i++)
        threads[i] = thread_of(RUNS[i], &filters[i]);
    while (next_line(&filters[FILTERS], line)) {
        puts(line);
        all++;
        bytes += (long)strlen(line) + 1;
    }
    for (int i = 0; i < FILTERS; i++)
        pthread_join(threads[i], NULL);
    for (int i = 0; i < FILTERS; i++)
        p_close(filters[i + 1].from);
    printf("%ld lines, %ld bytes, of %ld bytes\n", all, bytes, through);
    end_calls();
    return 0;
}

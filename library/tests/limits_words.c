/* The words that bindingclay_open_within makes of limits, on any processor: capacity is the lower half of its word, and file_max the upper one. What is
 * here stands for the library, so that the test runs where the library isn't built. */
#include "check.h"

static uint64_t words[16];
static size_t word_count;
static bool is_open;

bool bindingclay_open_words(const uint64_t *limits, size_t count, void **kernel, void **budget)
{
    (void)budget;
    word_count = count;
    memcpy(words, limits, count * sizeof *limits);
    if (is_open)
        *kernel = words;
    return is_open;
}

/* Makes a kernel within limits, and tells whether that handed on the words of the first fields, and answered as the library did. */
static bool hands_on(const bindingclay_limits *limits, size_t count)
{
    const uint64_t wanted[] = { limits->size, 11, 22, 33, 44, (uint64_t)0x00123456 << 32 | 0x000abcde, 77, 88, 99, 111, 122 };
    void *kernel = NULL;
    memset(words, UNTOUCHED, sizeof words);
    word_count = 0;
    bool opened = bindingclay_open_within(limits, &kernel);
    return word_count == count && memcmp(words, wanted, count * sizeof *words) == 0 && opened == is_open && (kernel == words) == is_open;
}

static void each_size(void)
{
    bindingclay_limits limits = { .first_call = 11, .memory = 22, .names = 33, .waiting_calls = 44, .capacity = 0x000abcde, .file_max = 0x00123456,
        .descriptors_max = 77, .spare_max = 88, .descriptions_max = 99, .processes_max = 111, .waiting_of_each = 122 };
    for (size_t count = 1; count <= sizeof limits / 8; count++) {
        limits.size = 8 * count;
        HOLDS(hands_on(&limits, count));
    }
}

/* A struct that is longer than this version's isn't read behind its end. */
static void too_long(void)
{
    bindingclay_limits limits = BINDINGCLAY_LIMITS;
    void *kernel = NULL;
    word_count = 99;
    limits.size = sizeof limits + 8;
    HOLDS(!bindingclay_open_within(&limits, &kernel) && word_count == 99);
    limits.size = UINT64_MAX - 7;
    HOLDS(!bindingclay_open_within(&limits, &kernel) && word_count == 99 && kernel == NULL);
}

int main(void)
{
    each_size();
    is_open = true;
    each_size();
    too_long();
    return end();
}

// The header in C++: it compiles, what crosses is laid out as in C, and calls link.
#include "bindingclay.h"

#include <cstddef>
#include <cstdio>
#include <poll.h>
#include <type_traits>

static_assert(sizeof(bindingclay_answer) == 16 && std::is_trivially_copyable<bindingclay_answer>::value, "an answer");
static_assert(offsetof(bindingclay_answer, error) == 8 && offsetof(bindingclay_answer, kind) == 12
        && offsetof(bindingclay_answer, sigpipe) == 13 && offsetof(bindingclay_answer, moved) == 14, "its fields");
static_assert(sizeof(bindingclay) == sizeof(void *), "a kernel");
static_assert(sizeof(bindingclay_pollfd) == sizeof(pollfd) && offsetof(bindingclay_pollfd, events) == offsetof(pollfd, events)
        && offsetof(bindingclay_pollfd, revents) == offsetof(pollfd, revents), "an entry of a poll");
static_assert(sizeof(bindingclay_limits) == 88 && offsetof(bindingclay_limits, waiting_calls) == 32
        && offsetof(bindingclay_limits, capacity) == 40 && offsetof(bindingclay_limits, file_max) == 44
        && offsetof(bindingclay_limits, descriptors_max) == 48 && offsetof(bindingclay_limits, spare_max) == 56
        && offsetof(bindingclay_limits, descriptions_max) == 64 && offsetof(bindingclay_limits, processes_max) == 72
        && offsetof(bindingclay_limits, waiting_of_each) == 80, "limits");
static_assert(sizeof(bindingclay_node_facts) == 24 && offsetof(bindingclay_node_facts, size) == 8
        && offsetof(bindingclay_node_facts, kind) == 16, "facts of a pipe or a file");
static_assert(sizeof(bindingclay_waiting_facts) == 16 && offsetof(bindingclay_waiting_facts, pid) == 4
        && offsetof(bindingclay_waiting_facts, first) == 8 && offsetof(bindingclay_waiting_facts, second) == 12, "facts of a call");
static_assert(sizeof(bindingclay_process) == 16 && offsetof(bindingclay_process, waiting_calls) == 8, "facts of a process");
static_assert(sizeof(bindingclay_segment_use) == 16 && offsetof(bindingclay_segment_use, spare) == 8, "segments");

int main()
{
    bindingclay clay{};
    bindingclay_ends ends{};
    bindingclay_node_facts node{};
    bindingclay_process process{};
    if (!bindingclay_open(1, BINDINGCLAY_MOST_FILE_BYTES, &clay.kernel))
        return 1;
    bool as_wanted = bindingclay_start(clay).value == 1
        && bindingclay_pipe(clay, 1, false, &ends).kind == BINDINGCLAY_DONE
        && bindingclay_pipe2(clay, 1, BINDINGCLAY_O_DIRECT, &ends).kind == BINDINGCLAY_DONE
        && bindingclay_get_fl(clay, 1, ends.write_end).value == (01 | BINDINGCLAY_O_DIRECT)
        && bindingclay_can_progress(clay, 1) && bindingclay_taken(clay, 1).kind == BINDINGCLAY_NO_CALL
        && bindingclay_next_ready(clay, 0).kind == BINDINGCLAY_NO_CALL
        && bindingclay_held(clay, 1, ends.read_end).value == 0 && bindingclay_name_facts(clay, nullptr, 0, &node).error == 2
        && bindingclay_process_facts(clay, 1, &process).kind == BINDINGCLAY_DONE && process.descriptors == 4
        && bindingclay_splice(clay, 1, ends.write_end, nullptr, ends.read_end, nullptr, 1, 0).error == 9;
    bindingclay_free(clay);
    // a record begins before the first process, and ends
    uint8_t first = 0;
    as_wanted = as_wanted && bindingclay_open(1, 0, &clay.kernel);
    if (as_wanted) {
        as_wanted = bindingclay_record(clay, true).kind == BINDINGCLAY_DONE && bindingclay_recorded(clay, nullptr, 0).value == 0
            && bindingclay_recorded(clay, &first, 1).value == 1 && first == 'p'
            && bindingclay_record(clay, false).kind == BINDINGCLAY_DONE && bindingclay_recorded(clay, &first, 1).error == 22;
        bindingclay_free(clay);
    }
    bindingclay_limits limits = BINDINGCLAY_LIMITS;
    limits.memory = 0;
    as_wanted = as_wanted && bindingclay_open_within(&limits, &clay.kernel);
    if (as_wanted) {
        as_wanted = bindingclay_start(clay).kind == BINDINGCLAY_NO_MEMORY && bindingclay_memory(clay).most == 0;
        bindingclay_free(clay);
    }
    if (!as_wanted)
        std::puts("header.cpp: a call answers otherwise");
    return as_wanted ? 0 : 1;
}

/* The front for threads: a crowd, in which most threads find the lock taken. Each sender of a group writes to each of its receivers, and each
 * receiver waits for what comes. If one thread weren't woken, its group would never come to its end.
 *
 *   shared_crowd [ROUNDS] */
#define _GNU_SOURCE
#include "shared.h"

#include <stdint.h>

/* Every other receiver reads with a deadline that is so many milliseconds away, and never comes. */
enum { ROUNDS = 2, GROUPS = 4, MEMBERS = 6, MESSAGES = 40, LONG = 1000000 };

/* A message tells who sent it, and how many that one sent to the same receiver before. */
struct message {
    uint32_t sender, number;
};

struct group {
    bc_process process;
    int ends[MEMBERS][2];
};

/* A sender, or the receiver of a pipe. */
struct member {
    pthread_t thread;
    const struct group *group;
    uint32_t number;
};

static bc_shared *shared;

static void *send_to_all(void *argument)
{
    const struct member *member = argument;
    for (uint32_t i = 0; i < MESSAGES * MEMBERS; i++) {
        struct message message = { .sender = member->number, .number = i / MEMBERS };
        HOLDS(bc_write(&member->group->process, member->group->ends[i % MEMBERS][1], &message, sizeof message) == sizeof message);
    }
    return NULL;
}

/* All messages come, and those of each sender in their order. */
static void *receive_all(void *argument)
{
    const struct member *member = argument;
    const struct timespec deadline = in_milliseconds(LONG);
    const bc_process process = bc_until(&member->group->process, member->number % 2 == 0 ? &deadline : NULL);
    uint32_t next[MEMBERS] = { 0 };
    for (int i = 0; i < MESSAGES * MEMBERS; i++) {
        struct message message = { .sender = MEMBERS };
        HOLDS(bc_read(&process, member->group->ends[member->number][0], &message, sizeof message) == sizeof message);
        if (HOLDS(message.sender < MEMBERS))
            HOLDS(message.number == next[message.sender]++);
    }
    return NULL;
}

static void begin_group(struct group *group)
{
    group->process = new_process(shared);
    for (int i = 0; i < MEMBERS; i++)
        need(bc_pipe2(&group->process, group->ends[i], 0) == 0, "a pipe");
}

static void one_round(void)
{
    static struct group groups[GROUPS];
    static struct member members[GROUPS][MEMBERS][2];
    for (int i = 0; i < GROUPS; i++)
        begin_group(&groups[i]);
    for (int i = 0; i < GROUPS; i++)
        for (uint32_t j = 0; j < MEMBERS; j++)
            for (int sends = 0; sends < 2; sends++) {
                members[i][j][sends] = (struct member){ .group = &groups[i], .number = j };
                members[i][j][sends].thread = thread_of(sends ? send_to_all : receive_all, &members[i][j][sends]);
            }
    for (int i = 0; i < GROUPS; i++) {
        for (int j = 0; j < MEMBERS; j++)
            for (int sends = 0; sends < 2; sends++)
                pthread_join(members[i][j][sends].thread, NULL);
        HOLDS(bc_waiting(&groups[i].process) == 0);
        HOLDS(bc_exit(&groups[i].process) == 0);
    }
}

int main(int count, char **words)
{
    int rounds = count > 1 ? atoi(words[1]) : ROUNDS;
    shared = new_shared();
    for (int i = 0; i < rounds; i++)
        one_round();
    HOLDS(bc_shared_close(shared) == 0);
    return end();
}

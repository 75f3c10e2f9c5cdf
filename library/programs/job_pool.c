/* A pool of jobs by a pipe of tokens, as make has its job server: who works has read a token, and writes it back. It prints how many jobs were done,
 * whether ever more worked than there are tokens, and how many tokens are left. */
#include "calls.h"

enum { WORKERS = 8, TOKENS = 3, JOBS = 200 };

static int tokens[2];
static pthread_mutex_t lock = PTHREAD_MUTEX_INITIALIZER;
static int working, most, done;

/* Counts one more who works, or one less. */
static void count_work(int more)
{
    pthread_mutex_lock(&lock);
    working += more;
    done += more < 0;
    most = working > most ? working : most;
    pthread_mutex_unlock(&lock);
}

static void *run_worker(void *argument)
{
    char token;
    (void)argument;
    for (int i = 0; i < JOBS; i++) {
        must(p_read(tokens[0], &token, 1) - 1, "a token");
        count_work(1);
        sched_yield();
        count_work(-1);
        p_write(tokens[1], &token, 1);
    }
    return NULL;
}

int main(void)
{
    pthread_t threads[WORKERS];
    char left[WORKERS];
    begin_calls();
    p_pipe2(tokens, 0);
    p_write(tokens[1], "+++", TOKENS);
    for (int i = 0; i < WORKERS; i++)
        threads[i] = thread_of(run_worker, NULL);
    for (int i = 0; i < WORKERS; i++)
        pthread_join(threads[i], NULL);
    printf("%d jobs, %s\n", done, most <= TOKENS ? "never more at once than tokens" : "MORE at once than tokens");
    printf("%ld tokens are left\n", p_read(tokens[0], left, sizeof left));
    p_close(tokens[0]);
    p_close(tokens[1]);
    end_calls();
    return 0;
}

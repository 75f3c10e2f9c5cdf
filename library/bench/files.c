/* What files cost beside a file of the host's in memory, written and read in order and in places that were drawn, and what large pipes cost that are
 * filled and drained. */
#define _GNU_SOURCE
#include "bench.h"

#include <fcntl.h>
#include <sys/mman.h>
#include <unistd.h>

enum { PIECE = 4 * KIB, MOST_SIZE = 16 * MIB, DRAWN = 4096, PIPES = 4 };

static uint8_t data[MIB], into[MIB];
static off_t places[DRAWN];

/* A file of a kernel and one of the host, which are written in pieces of so many bytes. */
struct file {
    bindingclay clay;
    char host[32];
    size_t size;
    int32_t fd;
    int host_fd;
};

static const uint8_t NAME[] = "file";

/* A file that is opened anew, written in pieces, and read in pieces. */
static double our_pass(const void *subject, int times)
{
    const struct file *file = subject;
    double begun = now();
    for (int i = 0; i < times; i++) {
        int32_t fd = (int32_t)done(bindingclay_open_name(file->clay, 1, NAME, sizeof NAME - 1, O_RDWR | O_CREAT | O_TRUNC));
        for (size_t at = 0; at < file->size; at += PIECE)
            done(bindingclay_write(file->clay, 1, fd, data + at % MIB, PIECE));
        done(bindingclay_lseek(file->clay, 1, fd, 0, SEEK_SET));
        for (size_t at = 0; at < file->size; at += PIECE)
            done(bindingclay_read(file->clay, 1, fd, into + at % MIB, PIECE));
        done(bindingclay_close(file->clay, 1, fd));
    }
    return (now() - begun) / times;
}

static double host_pass(const void *subject, int times)
{
    const struct file *file = subject;
    double begun = now();
    for (int i = 0; i < times; i++) {
        int fd = (int)as_host(open(file->host, O_RDWR | O_TRUNC));
        for (size_t at = 0; at < file->size; at += PIECE)
            as_host(write(fd, data + at % MIB, PIECE));
        as_host(lseek(fd, 0, SEEK_SET));
        for (size_t at = 0; at < file->size; at += PIECE)
            as_host(read(fd, into + at % MIB, PIECE));
        as_host(close(fd));
    }
    return (now() - begun) / times;
}

/* A write in a place that was drawn, of so many bytes as the file's pieces have. */
static double our_writes(const void *subject, int times)
{
    const struct file *file = subject;
    double begun = now();
    for (int i = 0; i < times; i++) {
        done(bindingclay_lseek(file->clay, 1, file->fd, places[i % DRAWN], SEEK_SET));
        done(bindingclay_write(file->clay, 1, file->fd, data, file->size));
    }
    return (now() - begun) / times;
}

static double host_writes(const void *subject, int times)
{
    const struct file *file = subject;
    double begun = now();
    for (int i = 0; i < times; i++) {
        as_host(lseek(file->host_fd, places[i % DRAWN], SEEK_SET));
        as_host(write(file->host_fd, data, file->size));
    }
    return (now() - begun) / times;
}

static void passes(struct file *file)
{
    static const size_t SIZES[] = { MIB, 4 * MIB, MOST_SIZE };
    for (size_t i = 0; i < sizeof SIZES / sizeof *SIZES; i++) {
        const struct side sides[] = { { "bindingclay", our_pass, file }, { "host's file in memory", host_pass, file } };
        file->size = SIZES[i];
        compare(&(struct row){ "files", "write and read a file by 4,096 bytes", SIZES[i], "ns", (int)(200 * MIB / SIZES[i]), 1 }, sides, 2);
    }
}

/* The file has as many bytes as any may, from the pass before. */
static void writes(struct file *file)
{
    static const size_t SIZES[] = { 1, 64, PIECE };
    uint64_t drawn = 1;
    for (size_t i = 0; i < DRAWN; i++) {
        drawn = drawn * 6364136223846793005 + 1442695040888963407;
        places[i] = (off_t)((drawn >> 33) % (MOST_SIZE - PIECE));
    }
    file->fd = (int32_t)done(bindingclay_open_name(file->clay, 1, NAME, sizeof NAME - 1, O_RDWR));
    file->host_fd = (int)as_host(open(file->host, O_RDWR));
    for (size_t i = 0; i < sizeof SIZES / sizeof *SIZES; i++) {
        const struct side sides[] = { { "bindingclay", our_writes, file }, { "host's file in memory", host_writes, file } };
        file->size = SIZES[i];
        compare(&(struct row){ "files", "write somewhere in a file of 16 MiB", SIZES[i], "ns", 100, DRAWN }, sides, 2);
    }
    done(bindingclay_close(file->clay, 1, file->fd));
    as_host(close(file->host_fd));
}

struct pipes {
    bindingclay clay;
    bindingclay_ends ends[PIPES];
    int host[PIPES][2];
};

/* All are filled, and then all are drained. */
static double our_pipes(const void *subject, int times)
{
    const struct pipes *pipes = subject;
    double begun = now();
    for (int i = 0; i < times; i++) {
        for (size_t k = 0; k < PIPES; k++)
            done(bindingclay_write(pipes->clay, 1, pipes->ends[k].write_end, data, MIB));
        for (size_t k = 0; k < PIPES; k++)
            need(done(bindingclay_read(pipes->clay, 1, pipes->ends[k].read_end, into, MIB)) == MIB, "a full pipe");
    }
    return (now() - begun) / times;
}

static double host_pipes(const void *subject, int times)
{
    const struct pipes *pipes = subject;
    double begun = now();
    for (int i = 0; i < times; i++) {
        for (size_t k = 0; k < PIPES; k++)
            as_host(write(pipes->host[k][1], data, MIB));
        for (size_t k = 0; k < PIPES; k++)
            need(as_host(read(pipes->host[k][0], into, MIB)) == MIB, "the host's full pipe");
    }
    return (now() - begun) / times;
}

static void large_pipes(bindingclay clay)
{
    struct pipes pipes = { .clay = clay };
    bool host = true;
    for (size_t k = 0; k < PIPES; k++) {
        done(bindingclay_pipe(clay, 1, false, &pipes.ends[k]));
        done(bindingclay_set_pipe_sz(clay, 1, pipes.ends[k].write_end, MIB));
        as_host(pipe(pipes.host[k]));
        host = fcntl(pipes.host[k][1], F_SETPIPE_SZ, MIB) >= MIB && host;
    }
    const struct side sides[] = { { "bindingclay", our_pipes, &pipes }, { "host's pipes", host_pipes, &pipes } };
    compare(&(struct row){ "pipes", "fill and drain four pipes of 1 MiB", PIPES * MIB, "ns", 100, 1 }, sides, host ? 2 : 1);
}

int main(int count, char **words)
{
    struct file file = { .clay = new_kernel() };
    begin(count, words);
    done(bindingclay_start(file.clay));
    for (size_t i = 0; i < sizeof data; i++)
        data[i] = (uint8_t)(i * 7);
    snprintf(file.host, sizeof file.host, "/proc/self/fd/%d", (int)as_host(memfd_create("bench", 0)));
    passes(&file);
    writes(&file);
    large_pipes(file.clay);
    bindingclay_free(file.clay);
    return 0;
}

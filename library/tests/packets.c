/* Packet pipes: how they are made, with pipe2 and BINDINGCLAY_O_DIRECT, what they hold, and what they refuse (pipe(2), O_DIRECT). */
#define _GNU_SOURCE
#include "packets.h"

static void one_packet_for_a_read(void)
{
    bindingclay clay = kernel_with_packets(0);
    DONE(put(clay, 1, PIPE_WRITE, "abc"), 3);
    DONE(put(clay, 1, PIPE_WRITE, "de"), 2);
    READS(clay, 1, PIPE_READ, 2, "ab");
    READS(clay, 1, PIPE_READ, 10, "de");
    DONE(put_from(clay, 1, PIPE_WRITE, 0, 5000), 5000);
    READS_FROM(clay, 1, PIPE_READ, 9000, 0, 4096);
    READS_FROM(clay, 1, PIPE_READ, 9000, 4096, 904);
    DONE(bindingclay_set_pipe_sz(clay, 1, PIPE_WRITE, 4096), 4096);
    PARKED_WITH_BYTES(put_from(clay, 1, PIPE_WRITE, 0, 5000), 1);
    READS_FROM(clay, 1, PIPE_READ, 1, 0, 1);
    DONE(again(clay, 1), 5000);
    READS_FROM(clay, 1, PIPE_READ, 9000, 4096, 904);
    bindingclay_free(clay);
}

static void packets_that_do_not_wait(void)
{
    bindingclay clay = kernel_with_packets(O_NONBLOCK);
    DONE(put_from(clay, 1, PIPE_WRITE, 0, 70000), 65536);
    FAULT(put(clay, 1, PIPE_WRITE, "a"), EAGAIN);
    POLLS(clay, PIPE_WRITE, POLLOUT, 0);
    READS_FROM(clay, 1, PIPE_READ, 1, 0, 1);
    POLLS(clay, PIPE_WRITE, POLLOUT, POLLOUT);
    DONE(put_from(clay, 1, PIPE_WRITE, 65536, 8192), 4096);
    FAULT(bindingclay_set_pipe_sz(clay, 1, PIPE_WRITE, 4096), EBUSY);
    bindingclay_ends bytes = NEW_PIPE(clay, 1, false);
    HOLDS(bytes.read_end == 2 && bytes.write_end == 3);
    FAULT(bindingclay_tee(clay, 1, PIPE_READ, 3, 1, 0), EINVAL);
    FAULT(bindingclay_splice(clay, 1, PIPE_READ, NULL, 3, NULL, 1, 0), EINVAL);
    DONE(bindingclay_set_fl(clay, 1, PIPE_WRITE, 0), 0);
    DONE(bindingclay_get_fl(clay, 1, PIPE_WRITE), O_WRONLY | DIRECT);
    DONE(bindingclay_get_fl(clay, 1, PIPE_READ), O_RDONLY | O_NONBLOCK);
    for (size_t i = 1; i <= 16; i++)
        READS_FROM(clay, 1, PIPE_READ, 4096, i * PACKET, 4096);
    DONE(put_from(clay, 1, PIPE_WRITE, 0, 8192), 8192);
    READS_FROM(clay, 1, PIPE_READ, 9000, 0, 4096);
    READS_FROM(clay, 1, PIPE_READ, 9000, 4096, 4096);
    FAULT(take(clay, 1, PIPE_READ, 9000), EAGAIN);
    DONE(bindingclay_close(clay, 1, PIPE_WRITE), 0);
    READS(clay, 1, PIPE_READ, 9000, "");
    bindingclay_free(clay);
}

/* What the ends of a pipe of each pair of flags are, and whether it keeps packets apart. */
static void flags_of_pipes(void)
{
    static const uint32_t FLAGS[] = { 0, O_NONBLOCK, DIRECT, O_NONBLOCK | DIRECT };
#ifdef __x86_64__
    HOLDS(O_DIRECT == BINDINGCLAY_O_DIRECT);
#endif
    for (int i = 0; i < 4; i++) {
        bindingclay clay = kernel_with_process();
        bindingclay_ends ends = { -1, -1 };
        DONE(bindingclay_pipe2(clay, 1, FLAGS[i], &ends), 0);
        HOLDS(ends.read_end == PIPE_READ && ends.write_end == PIPE_WRITE);
        DONE(bindingclay_get_fl(clay, 1, PIPE_READ), O_RDONLY | (FLAGS[i] & O_NONBLOCK));
        DONE(bindingclay_get_fl(clay, 1, PIPE_WRITE), O_WRONLY | FLAGS[i]);
        DONE(bindingclay_get_pipe_sz(clay, 1, PIPE_READ), FIRST_CAPACITY);
        DONE(put(clay, 1, PIPE_WRITE, "ab"), 2);
        DONE(put(clay, 1, PIPE_WRITE, "cd"), 2);
        READS(clay, 1, PIPE_READ, 9, (FLAGS[i] & DIRECT) != 0 ? "ab" : "abcd");
        bindingclay_free(clay);
    }
}

static void refused_pipes(void)
{
    bindingclay clay = kernel_with_process();
    bindingclay_ends ends = { -7, -8 };
    /* another bit is told before all else */
    for (int bit = 0; bit < 32; bit++) {
        uint32_t flag = (uint32_t)1 << bit;
        if (flag == O_NONBLOCK || flag == DIRECT)
            continue;
        FAULT(bindingclay_pipe2(clay, 1, flag, &ends), EINVAL);
        FAULT(bindingclay_pipe2(clay, 1, flag | O_NONBLOCK, &ends), EINVAL);
        FAULT(bindingclay_pipe2(clay, 1, flag | DIRECT, &ends), EINVAL);
        FAULT(bindingclay_pipe2(clay, 99, flag | O_NONBLOCK | DIRECT, &ends), EINVAL);
    }
    FAULT(bindingclay_pipe2(clay, 1, UINT32_MAX, &ends), EINVAL);
    OTHER(bindingclay_pipe2(clay, 99, DIRECT, &ends), BINDINGCLAY_NO_PROCESS);
    HOLDS(ends.read_end == -7 && ends.write_end == -8);
    /* nothing was made: these are the first two descriptors */
    for (int i = 0; i < 127; i++)
        NEW_PACKETS(clay, 1, 0);
    HOLDS(bindingclay_get_fl(clay, 1, 0).value == O_RDONLY);
    DONE(bindingclay_dup(clay, 1, 0), 254);
    FAULT(bindingclay_pipe2(clay, 1, DIRECT, &ends), EMFILE);
    FAULT(bindingclay_pipe2(clay, 1, DIRECT | O_CLOEXEC, &ends), EINVAL);
    DONE(bindingclay_dup(clay, 1, 0), 255);
    FAULT(bindingclay_pipe2(clay, 1, DIRECT, &ends), EMFILE);
    HOLDS(ends.read_end == -7 && ends.write_end == -8);
    bindingclay_free(clay);
}

static void full_system(void)
{
    bindingclay clay = new_kernel(1, 0);
    bindingclay_ends ends = { -7, -8 };
    /* 16 processes with 128 pipes have 4,096 open file descriptions */
    for (uint32_t pid = 1; pid <= 16; pid++) {
        DONE(bindingclay_start(clay), pid);
        for (int i = 0; i < 128; i++)
            NEW_PACKETS(clay, pid, 0);
    }
    DONE(bindingclay_start(clay), 17);
    FAULT(bindingclay_pipe2(clay, 17, DIRECT, &ends), ENFILE);
    FAULT(bindingclay_pipe2(clay, 1, DIRECT, &ends), EMFILE);
    DONE(bindingclay_close(clay, 1, 0), 0);
    FAULT(bindingclay_pipe2(clay, 17, DIRECT, &ends), ENFILE);
    HOLDS(ends.read_end == -7 && ends.write_end == -8);
    DONE(bindingclay_close(clay, 1, 1), 0);
    ends = NEW_PACKETS(clay, 17, 0);
    HOLDS(ends.read_end == 0 && ends.write_end == 1);
    bindingclay_free(clay);
}

/* A write of each size, and reads of what it made: of a whole packet, of more, of a byte less, of one byte and of none. */
static void sizes_of_packets(void)
{
    static const size_t SIZES[] = { 0, 1, 2, 4095, 4096, 4097, 8191, 8192, 8193, 65536 };
    enum { COUNT = sizeof SIZES / sizeof *SIZES };
    bindingclay clay = kernel_with_packets(O_NONBLOCK);
    for (int i = 0; i < COUNT; i++) {
        size_t size = SIZES[i];
        for (int way = 0; way < 4; way++) {
            DONE(put_from(clay, 1, PIPE_WRITE, 3, size), size);
            for (size_t from = 0; from < size; from += PACKET) {
                size_t length = size - from < PACKET ? size - from : PACKET;
                size_t asked[] = { length, MOST_ROOM, length > 1 ? length - 1 : 1, 1 };
                size_t given = asked[way] < length ? asked[way] : length;
                POLLS(clay, PIPE_READ, POLLIN, POLLIN);
                READS(clay, 1, PIPE_READ, 0, "");
                READS_FROM(clay, 1, PIPE_READ, asked[way], 3 + from, given);
            }
            POLLS(clay, PIPE_READ, POLLIN, 0);
            FAULT(take(clay, 1, PIPE_READ, MOST_ROOM), EAGAIN);
            READS(clay, 1, PIPE_READ, 0, "");
        }
    }
    bindingclay_free(clay);
}

/* Writes of several packets and small ones between them: each read gives one, in their order. */
static void packets_in_order(void)
{
    static const size_t SIZES[] = { 1, 4097, 4096, 3, 8192, 2, 4095 };
    enum { COUNT = sizeof SIZES / sizeof *SIZES };
    bindingclay clay = kernel_with_packets(O_NONBLOCK);
    size_t from = 0;
    for (int i = 0; i < COUNT; i++) {
        DONE(put_from(clay, 1, PIPE_WRITE, from, SIZES[i]), SIZES[i]);
        DONE(put(clay, 1, PIPE_WRITE, ""), 0);
        from += SIZES[i];
    }
    from = 0;
    for (int i = 0; i < COUNT; i++)
        for (size_t left = SIZES[i]; left > 0;) {
            size_t length = left < PACKET ? left : PACKET;
            READS_FROM(clay, 1, PIPE_READ, MOST_ROOM, from, length);
            from += length;
            left -= length;
        }
    FAULT(take(clay, 1, PIPE_READ, 1), EAGAIN);
    bindingclay_free(clay);
}

/* A pipe of each capacity that is full: of packets of one byte, and of one write of more than it holds. */
static void full_pipes(void)
{
    bindingclay clay = kernel_with_packets(O_NONBLOCK);
    for (uint32_t capacity = PACKET; capacity <= BINDINGCLAY_MOST_CAPACITY; capacity *= 2) {
        size_t places = capacity / PACKET;
        DONE(bindingclay_set_pipe_sz(clay, 1, PIPE_READ, capacity - PACKET + 1), capacity);
        DONE(bindingclay_get_pipe_sz(clay, 1, PIPE_WRITE), capacity);
        for (size_t i = 0; i < places; i++) {
            POLLS(clay, PIPE_WRITE, POLLOUT, POLLOUT);
            DONE(put_from(clay, 1, PIPE_WRITE, i, 1), 1);
        }
        POLLS(clay, PIPE_WRITE, POLLOUT, 0);
        FAULT(put_from(clay, 1, PIPE_WRITE, 0, 1), EAGAIN);
        FAULT(put_from(clay, 1, PIPE_WRITE, 0, PACKET), EAGAIN);
        FAULT(put_from(clay, 1, PIPE_WRITE, 0, PACKET + 1), EAGAIN);
        FAULT(put_from(clay, 1, PIPE_WRITE, 0, 2 * (size_t)capacity), EAGAIN);
        DONE(put(clay, 1, PIPE_WRITE, ""), 0);
        for (size_t i = 0; i < places; i++)
            READS_FROM(clay, 1, PIPE_READ, PACKET, i, 1);
        FAULT(take(clay, 1, PIPE_READ, PACKET), EAGAIN);
        /* with one place left a longer write puts in one packet, and with all of them as many */
        DONE(put_from(clay, 1, PIPE_WRITE, 0, capacity - PACKET), capacity - PACKET);
        DONE(put_from(clay, 1, PIPE_WRITE, capacity - PACKET, 2 * PACKET), PACKET);
        FAULT(put_from(clay, 1, PIPE_WRITE, 0, 1), EAGAIN);
        for (size_t i = 0; i < places; i++)
            READS_FROM(clay, 1, PIPE_READ, MOST_ROOM, i * PACKET, PACKET);
        DONE(put_from(clay, 1, PIPE_WRITE, 0, capacity + 1), capacity);
        for (size_t i = 0; i < places; i++) {
            /* what is held takes more places than the half */
            if (capacity > PACKET && places - i > places / 2)
                FAULT(bindingclay_set_pipe_sz(clay, 1, PIPE_WRITE, capacity / 2), EBUSY);
            READS_FROM(clay, 1, PIPE_READ, MOST_ROOM, i * PACKET, PACKET);
        }
        FAULT(take(clay, 1, PIPE_READ, 1), EAGAIN);
    }
    bindingclay_free(clay);
}

static void capacities(void)
{
    bindingclay clay = kernel_with_packets(O_NONBLOCK);
    for (size_t i = 0; i < 3; i++)
        DONE(put_from(clay, 1, PIPE_WRITE, i, 1), 1);
    /* three packets take three places, though they are three bytes */
    FAULT(bindingclay_set_pipe_sz(clay, 1, 99, 4096), EBADF);
    FAULT(bindingclay_set_pipe_sz(clay, 1, PIPE_WRITE, BINDINGCLAY_MOST_CAPACITY + 1), EPERM);
    FAULT(bindingclay_set_pipe_sz(clay, 1, PIPE_WRITE, 0), EBUSY);
    FAULT(bindingclay_set_pipe_sz(clay, 1, PIPE_READ, 4096), EBUSY);
    FAULT(bindingclay_set_pipe_sz(clay, 1, PIPE_READ, 8192), EBUSY);
    DONE(bindingclay_get_pipe_sz(clay, 1, PIPE_READ), FIRST_CAPACITY);
    DONE(bindingclay_set_pipe_sz(clay, 1, PIPE_READ, 8193), 16384);
    DONE(put_from(clay, 1, PIPE_WRITE, 3, 1), 1);
    FAULT(put_from(clay, 1, PIPE_WRITE, 4, 1), EAGAIN);
    FAULT(bindingclay_set_pipe_sz(clay, 1, PIPE_READ, 8192), EBUSY);
    READS_FROM(clay, 1, PIPE_READ, 9, 0, 1);
    READS_FROM(clay, 1, PIPE_READ, 9, 1, 1);
    DONE(bindingclay_set_pipe_sz(clay, 1, PIPE_READ, 8192), 8192);
    FAULT(put_from(clay, 1, PIPE_WRITE, 4, 1), EAGAIN);
    /* a larger one keeps what is held, and has places at once */
    DONE(bindingclay_set_pipe_sz(clay, 1, PIPE_WRITE, BINDINGCLAY_MOST_CAPACITY), BINDINGCLAY_MOST_CAPACITY);
    DONE(put_from(clay, 1, PIPE_WRITE, 4, BINDINGCLAY_MOST_CAPACITY), BINDINGCLAY_MOST_CAPACITY - 2 * PACKET);
    READS_FROM(clay, 1, PIPE_READ, 9, 2, 1);
    READS_FROM(clay, 1, PIPE_READ, 9, 3, 1);
    READS_FROM(clay, 1, PIPE_READ, 9, 4, 9);
    READS_FROM(clay, 1, PIPE_READ, MOST_ROOM, 4 + PACKET, PACKET);
    bindingclay_free(clay);
}

/* A packet of one byte takes the memory of 4,096, and gives it back. */
static void memory_of_packets(void)
{
    bindingclay clay = kernel_with_packets(O_NONBLOCK);
    bindingclay_memory_use before = bindingclay_memory(clay);
    for (size_t i = 0; i < 16; i++)
        DONE(put_from(clay, 1, PIPE_WRITE, i, 1), 1);
    bindingclay_memory_use full = bindingclay_memory(clay);
    HOLDS(full.held - full.spare >= before.held - before.spare + 65536);
    for (size_t i = 0; i < 16; i++)
        READS_FROM(clay, 1, PIPE_READ, 1, i, 1);
    bindingclay_memory_use empty = bindingclay_memory(clay);
    HOLDS(empty.held - empty.spare <= full.held - full.spare - 65536);
    /* so do those of a pipe that goes */
    for (size_t i = 0; i < 16; i++)
        DONE(put_from(clay, 1, PIPE_WRITE, i, 1), 1);
    DONE(bindingclay_close(clay, 1, PIPE_WRITE), 0);
    DONE(bindingclay_close(clay, 1, PIPE_READ), 0);
    bindingclay_memory_use gone = bindingclay_memory(clay);
    HOLDS(gone.held - gone.spare <= full.held - full.spare - 65536);
    bindingclay_free(clay);
}

static void refused_reads_and_writes(void)
{
    bindingclay clay = kernel_with_packets(O_NONBLOCK);
    FAULT(put(clay, 1, PIPE_READ, "a"), EBADF);
    FAULT(put(clay, 1, PIPE_READ, ""), EBADF);
    FAULT(take(clay, 1, PIPE_WRITE, 1), EBADF);
    FAULT(take(clay, 1, PIPE_WRITE, 0), EBADF);
    FAULT(bindingclay_lseek(clay, 1, PIPE_READ, 0, SEEK_SET), ESPIPE);
    OTHER(put(clay, 99, PIPE_WRITE, "a"), BINDINGCLAY_NO_PROCESS);
    OTHER(take(clay, 99, PIPE_READ, 1), BINDINGCLAY_NO_PROCESS);
    FAULT(take(clay, 1, PIPE_READ, 1), EAGAIN);
    DONE(bindingclay_close(clay, 1, PIPE_READ), 0);
    FAULT(put(clay, 1, PIPE_READ, "a"), EBADF);
    FAULT(put(clay, 1, PIPE_WRITE, "a"), EPIPE);
    bindingclay_free(clay);
}

/* What F_SETFL sets of it, and what an open does with the flag. */
static void status_flags(void)
{
    bindingclay clay = kernel_with_packets(0);
    DONE(bindingclay_set_fl(clay, 1, PIPE_WRITE, O_APPEND | O_NONBLOCK), 0);
    DONE(bindingclay_get_fl(clay, 1, PIPE_WRITE), O_WRONLY | O_APPEND | O_NONBLOCK | DIRECT);
    DONE(bindingclay_set_fl(clay, 1, PIPE_WRITE, DIRECT), 0);
    DONE(bindingclay_get_fl(clay, 1, PIPE_WRITE), O_WRONLY | DIRECT);
    DONE(bindingclay_set_fl(clay, 1, PIPE_WRITE, 0), 0);
    DONE(bindingclay_get_fl(clay, 1, PIPE_WRITE), O_WRONLY | DIRECT);
    DONE(bindingclay_set_fl(clay, 1, PIPE_READ, DIRECT | O_NONBLOCK), 0);
    DONE(bindingclay_get_fl(clay, 1, PIPE_READ), O_RDONLY | O_NONBLOCK);
    DONE(put(clay, 1, PIPE_WRITE, "ab"), 2);
    DONE(put(clay, 1, PIPE_WRITE, "cd"), 2);
    READS(clay, 1, PIPE_READ, 9, "ab");
    /* a pipe of bytes stays one */
    bindingclay_ends ends = NEW_PIPE(clay, 1, false);
    DONE(bindingclay_set_fl(clay, 1, ends.write_end, DIRECT), 0);
    DONE(bindingclay_get_fl(clay, 1, ends.write_end), O_WRONLY);
    DONE(put(clay, 1, ends.write_end, "ab"), 2);
    DONE(put(clay, 1, ends.write_end, "cd"), 2);
    READS(clay, 1, ends.read_end, 9, "abcd");
    /* so does a FIFO, and a file has no such flag */
    DONE(mkfifo_text(clay, 1, "p"), 0);
    DONE(open_text(clay, 1, "p", O_RDWR | DIRECT), 4);
    DONE(bindingclay_get_fl(clay, 1, 4), O_RDWR);
    DONE(put(clay, 1, 4, "ab"), 2);
    DONE(put(clay, 1, 4, "cd"), 2);
    READS(clay, 1, 4, 9, "abcd");
    DONE(open_text(clay, 1, "f", O_RDWR | O_CREAT | DIRECT), 5);
    DONE(bindingclay_get_fl(clay, 1, 5), O_RDWR);
    bindingclay_free(clay);
}

/* Descriptors of process 1 there: a packet pipe, another, a pipe of bytes, and a file. */
enum { OTHER_READ = 2, OTHER_WRITE, BYTES_READ, BYTES_WRITE, FILE_FD };

static bindingclay with_all_kinds(void)
{
    bindingclay clay = kernel_with_packets(0);
    NEW_PACKETS(clay, 1, 0);
    NEW_PIPE(clay, 1, false);
    DONE(open_text(clay, 1, "f", O_RDWR | O_CREAT), FILE_FD);
    return clay;
}

static bindingclay_answer splice_plainly(bindingclay clay, int32_t from, int32_t to, uint32_t len)
{
    return bindingclay_splice(clay, 1, from, NULL, to, NULL, len, 0);
}

static bindingclay_answer tee_plainly(bindingclay clay, int32_t from, int32_t to, uint32_t len)
{
    return bindingclay_tee(clay, 1, from, to, len, 0);
}

/* Each pair with a packet pipe is refused, whatever is in the pipes, and nothing moves. */
static void refuse_all_moves(bindingclay clay)
{
    static const struct {
        int32_t from, to;
    } PAIRS[] = {
        { PIPE_READ, BYTES_WRITE },
        { BYTES_READ, PIPE_WRITE },
        { PIPE_READ, OTHER_WRITE },
        { PIPE_READ, PIPE_WRITE },
        { PIPE_READ, FILE_FD },
        { FILE_FD, PIPE_WRITE },
    };
    for (size_t i = 0; i < sizeof PAIRS / sizeof *PAIRS; i++) {
        FAULT(splice_plainly(clay, PAIRS[i].from, PAIRS[i].to, 1), EINVAL);
        FAULT(splice_plainly(clay, PAIRS[i].from, PAIRS[i].to, BINDINGCLAY_MOST_SIZE), EINVAL);
        FAULT(bindingclay_splice(clay, 1, PAIRS[i].from, NULL, PAIRS[i].to, NULL, 1, SPLICE_F_NONBLOCK), EINVAL);
        FAULT(tee_plainly(clay, PAIRS[i].from, PAIRS[i].to, 1), EINVAL);
        FAULT(bindingclay_tee(clay, 1, PAIRS[i].from, PAIRS[i].to, 1, SPLICE_F_NONBLOCK), EINVAL);
        /* a length of 0 is answered before */
        DONE(splice_plainly(clay, PAIRS[i].from, PAIRS[i].to, 0), 0);
        DONE(tee_plainly(clay, PAIRS[i].from, PAIRS[i].to, 0), 0);
    }
}

static void splices_and_tees(void)
{
    bindingclay clay = with_all_kinds();
    const uint64_t zero = 0;
    refuse_all_moves(clay);
    DONE(put(clay, 1, PIPE_WRITE, "abc"), 3);
    DONE(put(clay, 1, BYTES_WRITE, "de"), 2);
    DONE(bindingclay_write(clay, 1, FILE_FD, bytes_of("fg"), 2), 2);
    DONE(bindingclay_lseek(clay, 1, FILE_FD, 0, SEEK_SET), 0);
    refuse_all_moves(clay);
    /* another flag is told before all else; then, in this order, the process, the descriptors and the offset of a pipe */
    FAULT(bindingclay_splice(clay, 99, PIPE_READ, NULL, 99, NULL, 1, 16), EINVAL);
    FAULT(bindingclay_tee(clay, 99, PIPE_READ, 99, 1, 16), EINVAL);
    OTHER(bindingclay_splice(clay, 99, PIPE_READ, NULL, BYTES_WRITE, NULL, 1, 0), BINDINGCLAY_NO_PROCESS);
    OTHER(bindingclay_tee(clay, 99, PIPE_READ, BYTES_WRITE, 1, 0), BINDINGCLAY_NO_PROCESS);
    FAULT(splice_plainly(clay, PIPE_WRITE, BYTES_WRITE, 1), EBADF);
    FAULT(splice_plainly(clay, PIPE_READ, BYTES_READ, 1), EBADF);
    FAULT(splice_plainly(clay, PIPE_READ, 99, 1), EBADF);
    FAULT(splice_plainly(clay, 99, PIPE_WRITE, 1), EBADF);
    FAULT(tee_plainly(clay, PIPE_WRITE, BYTES_WRITE, 1), EBADF);
    FAULT(tee_plainly(clay, PIPE_READ, BYTES_READ, 1), EBADF);
    FAULT(tee_plainly(clay, PIPE_READ, 99, 1), EBADF);
    FAULT(bindingclay_splice(clay, 1, PIPE_READ, &zero, BYTES_WRITE, NULL, 1, 0), ESPIPE);
    FAULT(bindingclay_splice(clay, 1, BYTES_READ, NULL, PIPE_WRITE, &zero, 1, 0), ESPIPE);
    FAULT(bindingclay_splice(clay, 1, PIPE_READ, NULL, FILE_FD, &zero, 1, 0), EINVAL);
    DONE(bindingclay_set_fl(clay, 1, FILE_FD, O_APPEND), 0);
    FAULT(splice_plainly(clay, PIPE_READ, FILE_FD, 1), EINVAL);
    /* what was there stays */
    READS(clay, 1, PIPE_READ, 9, "abc");
    READS(clay, 1, BYTES_READ, 9, "de");
    HAS_FILE(clay, "f", "fg");
    DONE(bindingclay_lseek(clay, 1, FILE_FD, 0, SEEK_CUR), 0);
    bindingclay_free(clay);
    /* it comes before the lack of a reader, the end of the source and a wait */
    clay = with_all_kinds();
    DONE(bindingclay_close(clay, 1, BYTES_READ), 0);
    FAULT(splice_plainly(clay, PIPE_READ, BYTES_WRITE, 1), EINVAL);
    FAULT(tee_plainly(clay, PIPE_READ, BYTES_WRITE, 1), EINVAL);
    DONE(bindingclay_close(clay, 1, OTHER_READ), 0);
    FAULT(splice_plainly(clay, PIPE_READ, OTHER_WRITE, 1), EINVAL);
    FAULT(splice_plainly(clay, FILE_FD, OTHER_WRITE, 1), EINVAL);
    FAULT(tee_plainly(clay, PIPE_READ, OTHER_WRITE, 1), EINVAL);
    DONE(bindingclay_close(clay, 1, PIPE_WRITE), 0);
    FAULT(splice_plainly(clay, PIPE_READ, OTHER_WRITE, 1), EINVAL);
    FAULT(splice_plainly(clay, PIPE_READ, FILE_FD, 1), EINVAL);
    FAULT(tee_plainly(clay, PIPE_READ, OTHER_WRITE, 1), EINVAL);
    bindingclay_free(clay);
}

int main(void)
{
    one_packet_for_a_read();
    packets_that_do_not_wait();
    flags_of_pipes();
    refused_pipes();
    full_system();
    sizes_of_packets();
    packets_in_order();
    full_pipes();
    capacities();
    memory_of_packets();
    refused_reads_and_writes();
    status_flags();
    splices_and_tees();
    return end();
}

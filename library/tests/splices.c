/* splice and tee, with each refusal, in the order of the refusals (splice(2); tee(2)). */
#define _GNU_SOURCE
#include "check.h"

#include <fcntl.h>

static const int32_t NOT_OPEN[] = { 99, 255, 256, -1, INT32_MAX, INT32_MIN };
enum { NOT_OPEN_COUNT = sizeof NOT_OPEN / sizeof *NOT_OPEN };

/* Descriptors of process 1: two pipes, and the file "f" for both. */
enum { READ_END, WRITE_END, OTHER_READ_END, OTHER_WRITE_END, FILE_FD };

static bindingclay two_pipes_and_a_file(uint32_t file_max, bool nonblock)
{
    bindingclay clay = new_kernel(1, file_max);
    DONE(bindingclay_start(clay), 1);
    NEW_PIPE(clay, 1, nonblock);
    NEW_PIPE(clay, 1, nonblock);
    DONE(open_text(clay, 1, "f", O_RDWR | O_CREAT), FILE_FD);
    return clay;
}

/* A splice without offsets and flags. */
static bindingclay_answer splice_plainly(bindingclay clay, int32_t from, int32_t to, uint32_t len)
{
    return bindingclay_splice(clay, 1, from, NULL, to, NULL, len, 0);
}

static bindingclay_answer tee_plainly(bindingclay clay, int32_t from, int32_t to, uint32_t len)
{
    return bindingclay_tee(clay, 1, from, to, len, 0);
}

static void refused_splices(void)
{
    bindingclay clay = two_pipes_and_a_file(100, false);
    const uint64_t zero = 0, greatest = INT64_MAX, too_great = greatest + 1, most = UINT64_MAX;
    /* another bit than those of the flags is told before all else, and then a length of 0 */
    FAULT(bindingclay_splice(clay, 99, 99, NULL, 99, NULL, 0, 16), EINVAL);
    FAULT(bindingclay_splice(clay, 1, READ_END, NULL, FILE_FD, NULL, 1, 0x80000000 | SPLICE_F_NONBLOCK), EINVAL);
    DONE(bindingclay_splice(clay, 1, 99, NULL, 99, NULL, 0, 15), 0);
    DONE(bindingclay_splice(clay, 1, WRITE_END, &most, READ_END, &most, 0, 0), 0);
    for (int i = 0; i < NOT_OPEN_COUNT; i++) {
        FAULT(splice_plainly(clay, NOT_OPEN[i], OTHER_WRITE_END, 1), EBADF);
        FAULT(splice_plainly(clay, READ_END, NOT_OPEN[i], 1), EBADF);
    }
    FAULT(splice_plainly(clay, WRITE_END, OTHER_WRITE_END, 1), EBADF);
    FAULT(splice_plainly(clay, READ_END, OTHER_READ_END, 1), EBADF);
    FAULT(bindingclay_splice(clay, 1, WRITE_END, &zero, OTHER_WRITE_END, &zero, 1, 0), EBADF);
    FAULT(bindingclay_splice(clay, 1, READ_END, &zero, FILE_FD, &most, 1, 0), ESPIPE);
    FAULT(bindingclay_splice(clay, 1, FILE_FD, &most, WRITE_END, &zero, 1, 0), ESPIPE);
    FAULT(bindingclay_splice(clay, 1, FILE_FD, &too_great, WRITE_END, NULL, 1, 0), EINVAL);
    FAULT(bindingclay_splice(clay, 1, READ_END, NULL, FILE_FD, &too_great, 1, 0), EINVAL);
    FAULT(bindingclay_splice(clay, 1, READ_END, NULL, FILE_FD, &most, 1, 0), EINVAL);
    FAULT(splice_plainly(clay, FILE_FD, FILE_FD, 1), EINVAL);
    FAULT(splice_plainly(clay, READ_END, WRITE_END, 1), EINVAL);
    DONE(bindingclay_set_fl(clay, 1, FILE_FD, O_APPEND), 0);
    FAULT(splice_plainly(clay, READ_END, FILE_FD, 1), EINVAL);
    /* of a source it doesn't matter */
    DONE(splice_plainly(clay, FILE_FD, WRITE_END, 1), 0);
    DONE(bindingclay_set_fl(clay, 1, FILE_FD, 0), 0);
    /* past the end of the file there is nothing to read, and no room */
    DONE(bindingclay_splice(clay, 1, FILE_FD, &greatest, WRITE_END, NULL, 1, 0), 0);
    DONE(put(clay, 1, WRITE_END, "abc"), 3);
    FAULT(bindingclay_splice(clay, 1, READ_END, NULL, FILE_FD, &greatest, 1, 0), EFBIG);
    READS(clay, 1, READ_END, 9, "abc");
    bindingclay_free(clay);
}

static void splices_of_files(void)
{
    bindingclay clay = two_pipes_and_a_file(10, false);
    const uint64_t first = 1, last = 8;
    DONE(put(clay, 1, FILE_FD, "hello"), 5);
    /* at the file's own offset, its end, there is nothing; at one that is given its own stays */
    DONE(splice_plainly(clay, FILE_FD, WRITE_END, 100), 0);
    DONE(bindingclay_splice(clay, 1, FILE_FD, &first, WRITE_END, NULL, 3, 0), 3);
    DONE(bindingclay_lseek(clay, 1, FILE_FD, 0, SEEK_CUR), 5);
    DONE(bindingclay_lseek(clay, 1, FILE_FD, 3, SEEK_SET), 3);
    DONE(splice_plainly(clay, FILE_FD, WRITE_END, 1), 1);
    DONE(bindingclay_lseek(clay, 1, FILE_FD, 0, SEEK_CUR), 4);
    READS(clay, 1, READ_END, 9, "elll");
    /* into the file, over what is there */
    DONE(put(clay, 1, WRITE_END, "ABCDEF"), 6);
    DONE(splice_plainly(clay, READ_END, FILE_FD, 2), 2);
    HAS_FILE(clay, "f", "hellAB");
    DONE(bindingclay_splice(clay, 1, READ_END, NULL, FILE_FD, &first, 1, 0), 1);
    HAS_FILE(clay, "f", "hCllAB");
    DONE(bindingclay_lseek(clay, 1, FILE_FD, 0, SEEK_CUR), 6);
    /* as far as the file may go, with zeros in the gap */
    DONE(bindingclay_splice(clay, 1, READ_END, NULL, FILE_FD, &last, 100, 0), 2);
    uint8_t into[10];
    DONE(bindingclay_file_bytes(clay, bytes_of("f"), 1, into, sizeof into), 10);
    HOLDS(memcmp(into, "hCllAB\0\0DE", sizeof into) == 0);
    READS(clay, 1, READ_END, 9, "F");
    bindingclay_free(clay);
}

static void splices_of_pipes(void)
{
    bindingclay clay = two_pipes_and_a_file(10, true);
    FAULT(splice_plainly(clay, READ_END, OTHER_WRITE_END, 5), EAGAIN);
    FAULT(splice_plainly(clay, READ_END, FILE_FD, 5), EAGAIN);
    DONE(put(clay, 1, WRITE_END, "hello"), 5);
    DONE(splice_plainly(clay, READ_END, OTHER_WRITE_END, 2), 2);
    READS(clay, 1, OTHER_READ_END, 9, "he");
    DONE(splice_plainly(clay, READ_END, OTHER_WRITE_END, BINDINGCLAY_MOST_SIZE), 3);
    READS(clay, 1, OTHER_READ_END, 9, "llo");
    /* as much as there is room for; then none */
    DONE(put_many(clay, 1, WRITE_END, 65536), 65536);
    DONE(put_many(clay, 1, OTHER_WRITE_END, 65533), 65533);
    DONE(splice_plainly(clay, READ_END, OTHER_WRITE_END, 5), 3);
    FAULT(splice_plainly(clay, READ_END, OTHER_WRITE_END, 5), EAGAIN);
    /* the end of the source comes before a full target, and the lack of a reader before both */
    DONE(take(clay, 1, READ_END, 65536), 65533);
    DONE(bindingclay_close(clay, 1, WRITE_END), 0);
    DONE(splice_plainly(clay, READ_END, OTHER_WRITE_END, 5), 0);
    DONE(bindingclay_close(clay, 1, OTHER_READ_END), 0);
    FAULT(splice_plainly(clay, READ_END, OTHER_WRITE_END, 5), EPIPE);
    FAULT(splice_plainly(clay, FILE_FD, OTHER_WRITE_END, 5), EPIPE);
    bindingclay_free(clay);
}

static void splices_that_wait(void)
{
    bindingclay clay = two_pipes_and_a_file(10, false);
    const uint64_t first = 1, end_of_file = 10;
    FAULT(bindingclay_splice(clay, 1, READ_END, NULL, FILE_FD, &first, 5, SPLICE_F_NONBLOCK), EAGAIN);
    FAULT(bindingclay_tee(clay, 1, READ_END, OTHER_WRITE_END, 5, SPLICE_F_NONBLOCK), EAGAIN);
    /* the other flags have no effect */
    PARKED(bindingclay_splice(clay, 1, READ_END, NULL, FILE_FD, &first, 5, SPLICE_F_MOVE | SPLICE_F_MORE | SPLICE_F_GIFT), 1);
    PARKED(again(clay, 1), 1);
    DONE(put(clay, 1, WRITE_END, "abc"), 3);
    DONE(again(clay, 1), 3);
    uint8_t into[4];
    DONE(bindingclay_file_bytes(clay, bytes_of("f"), 1, into, sizeof into), 4);
    HOLDS(memcmp(into, "\0abc", sizeof into) == 0);
    PARKED(splice_plainly(clay, READ_END, OTHER_WRITE_END, 5), 2);
    FAULT(bindingclay_interrupt(clay, 2), EINTR);
    /* a fault ends it: there is no room at the end of the file, and the byte stays */
    PARKED(bindingclay_splice(clay, 1, READ_END, NULL, FILE_FD, &end_of_file, 5, 0), 3);
    DONE(put(clay, 1, WRITE_END, "x"), 1);
    FAULT(again(clay, 3), EFBIG);
    OTHER(again(clay, 3), BINDINGCLAY_NO_CALL);
    READS(clay, 1, READ_END, 9, "x");
    /* it keeps the ends that it found open, until it is answered */
    PARKED(splice_plainly(clay, READ_END, OTHER_WRITE_END, 5), 4);
    DONE(bindingclay_close(clay, 1, READ_END), 0);
    DONE(bindingclay_close(clay, 1, OTHER_WRITE_END), 0);
    DONE(put(clay, 1, WRITE_END, "d"), 1);
    DONE(again(clay, 4), 1);
    READS(clay, 1, OTHER_READ_END, 9, "d");
    READS(clay, 1, OTHER_READ_END, 9, "");
    FAULT(put(clay, 1, WRITE_END, "d"), EPIPE);
    bindingclay_free(clay);
}

/* O_NONBLOCK of either pipe keeps a splice and a tee from waiting, and that of a file doesn't. */
static void who_may_not_wait(void)
{
    static const int32_t PIPES[] = { READ_END, OTHER_WRITE_END };
    bindingclay clay = two_pipes_and_a_file(10, false);
    for (int i = 0; i < 2; i++) {
        DONE(bindingclay_set_fl(clay, 1, PIPES[i], O_NONBLOCK), 0);
        FAULT(splice_plainly(clay, READ_END, OTHER_WRITE_END, 5), EAGAIN);
        FAULT(tee_plainly(clay, READ_END, OTHER_WRITE_END, 5), EAGAIN);
        DONE(bindingclay_set_fl(clay, 1, PIPES[i], 0), 0);
    }
    DONE(bindingclay_set_fl(clay, 1, WRITE_END, O_NONBLOCK), 0);
    DONE(bindingclay_set_fl(clay, 1, OTHER_READ_END, O_NONBLOCK), 0);
    DONE(bindingclay_set_fl(clay, 1, FILE_FD, O_NONBLOCK), 0);
    PARKED(splice_plainly(clay, READ_END, OTHER_WRITE_END, 5), 1);
    PARKED(tee_plainly(clay, READ_END, OTHER_WRITE_END, 5), 2);
    PARKED(splice_plainly(clay, READ_END, FILE_FD, 5), 3);
    bindingclay_free(clay);
}

static void refused_tees(void)
{
    bindingclay clay = two_pipes_and_a_file(10, true);
    FAULT(bindingclay_tee(clay, 99, 99, 99, 0, 16), EINVAL);
    DONE(bindingclay_tee(clay, 1, 99, 99, 0, 15), 0);
    for (int i = 0; i < NOT_OPEN_COUNT; i++) {
        FAULT(tee_plainly(clay, NOT_OPEN[i], OTHER_WRITE_END, 1), EBADF);
        FAULT(tee_plainly(clay, READ_END, NOT_OPEN[i], 1), EBADF);
    }
    FAULT(tee_plainly(clay, WRITE_END, OTHER_WRITE_END, 1), EBADF);
    FAULT(tee_plainly(clay, READ_END, OTHER_READ_END, 1), EBADF);
    FAULT(tee_plainly(clay, FILE_FD, OTHER_WRITE_END, 1), EINVAL);
    FAULT(tee_plainly(clay, READ_END, FILE_FD, 1), EINVAL);
    FAULT(tee_plainly(clay, READ_END, WRITE_END, 1), EINVAL);
    FAULT(tee_plainly(clay, READ_END, OTHER_WRITE_END, 1), EAGAIN);
    DONE(bindingclay_close(clay, 1, OTHER_READ_END), 0);
    FAULT(tee_plainly(clay, READ_END, OTHER_WRITE_END, 1), EPIPE);
    bindingclay_free(clay);
}

static void tees(void)
{
    bindingclay clay = two_pipes_and_a_file(10, false);
    PARKED(tee_plainly(clay, READ_END, OTHER_WRITE_END, 100), 1);
    DONE(put(clay, 1, WRITE_END, "hello"), 5);
    DONE(again(clay, 1), 5);
    DONE(tee_plainly(clay, READ_END, OTHER_WRITE_END, 2), 2);
    READS(clay, 1, OTHER_READ_END, 9, "hellohe");
    READS(clay, 1, READ_END, 9, "hello");
    /* as much as there is room for; then it waits for room */
    DONE(put(clay, 1, WRITE_END, "abc"), 3);
    DONE(put_many(clay, 1, OTHER_WRITE_END, 65535), 65535);
    DONE(tee_plainly(clay, READ_END, OTHER_WRITE_END, 3), 1);
    PARKED(tee_plainly(clay, READ_END, OTHER_WRITE_END, 3), 2);
    FAULT(bindingclay_tee(clay, 1, READ_END, OTHER_WRITE_END, 3, SPLICE_F_NONBLOCK), EAGAIN);
    DONE(take(clay, 1, OTHER_READ_END, 65535), 65535);
    DONE(again(clay, 2), 3);
    READS(clay, 1, OTHER_READ_END, 9, "aabc");
    /* the end of the source */
    READS(clay, 1, READ_END, 9, "abc");
    DONE(bindingclay_close(clay, 1, WRITE_END), 0);
    DONE(tee_plainly(clay, READ_END, OTHER_WRITE_END, 3), 0);
    bindingclay_free(clay);
}

int main(void)
{
    refused_splices();
    splices_of_files();
    splices_of_pipes();
    splices_that_wait();
    who_may_not_wait();
    refused_tees();
    tees();
    return end();
}

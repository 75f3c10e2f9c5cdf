/* Regular files: open_name, unlink, lseek, file_bytes, reads and writes, with each refusal (open; unlink; lseek; read; write). */
#include "check.h"

#include <fcntl.h>

static const int32_t NOT_OPEN[] = { 99, 255, 256, -1, INT32_MAX, INT32_MIN };
enum { NOT_OPEN_COUNT = sizeof NOT_OPEN / sizeof *NOT_OPEN };

/* What each call with a name answers of one that is none. */
static void refused_names(bindingclay clay, const uint8_t *name, size_t size, int error)
{
    FAULT(bindingclay_open_name(clay, 1, name, size, O_RDWR | O_CREAT), error);
    FAULT(bindingclay_mkfifo(clay, 1, name, size), error);
    FAULT(bindingclay_unlink(clay, 1, name, size), error);
    uint8_t into[1] = { UNTOUCHED };
    FAULT(bindingclay_file_bytes(clay, name, size, into, sizeof into), ENOENT);
    HOLDS(into[0] == UNTOUCHED);
}

static void names(void)
{
    bindingclay clay = kernel_with_process();
    uint8_t name[300];
    memset(name, 'n', sizeof name);
    refused_names(clay, name, 0, ENOENT);
    refused_names(clay, name, 256, ENAMETOOLONG);
    refused_names(clay, name, 300, ENAMETOOLONG);
    refused_names(clay, bytes_of("a/b"), 3, EINVAL);
    refused_names(clay, bytes_of("/"), 1, EINVAL);
    refused_names(clay, bytes_of("a\0b"), 3, EINVAL);
    /* the length comes before the bytes */
    name[100] = '/';
    refused_names(clay, name, 256, ENAMETOOLONG);
    refused_names(clay, name, 255, EINVAL);
    name[100] = 'n';
    DONE(bindingclay_open_name(clay, 1, name, 255, O_RDWR | O_CREAT), 0);
    /* another length, or another last byte, is another name */
    FAULT(bindingclay_open_name(clay, 1, name, 254, O_RDWR), ENOENT);
    name[254] = 'm';
    FAULT(bindingclay_open_name(clay, 1, name, 255, O_RDWR), ENOENT);
    name[254] = 'n';
    DONE(bindingclay_unlink(clay, 1, name, 255), 0);
    FAULT(bindingclay_unlink(clay, 1, name, 255), ENOENT);
    DONE(bindingclay_open_name(clay, 1, bytes_of(" \xff.."), 4, O_WRONLY | O_CREAT), 1);
    bindingclay_free(clay);
}

static void opens(void)
{
    bindingclay clay = kernel_with_process();
    /* no mode: that is told before all else */
    FAULT(open_text(clay, 1, "f", O_ACCMODE | O_CREAT), EINVAL);
    FAULT(open_text(clay, 99, "", O_ACCMODE), EINVAL);
    FAULT(open_text(clay, 1, "f", O_RDWR), ENOENT);
    FAULT(open_text(clay, 1, "f", O_RDWR | O_EXCL | O_TRUNC), ENOENT);
    DONE(open_text(clay, 1, "f", O_WRONLY | O_CREAT | O_EXCL), 0);
    FAULT(open_text(clay, 1, "f", O_WRONLY | O_CREAT | O_EXCL), EEXIST);
    DONE(open_text(clay, 1, "f", O_RDONLY | O_CREAT), 1);
    /* bits that are none of the flags have no effect */
    DONE(open_text(clay, 1, "f", O_RDWR | O_EXCL | O_NONBLOCK | 0xfffff13c), 2);
    DONE(bindingclay_get_fl(clay, 1, 0), O_WRONLY);
    DONE(bindingclay_get_fl(clay, 1, 1), O_RDONLY);
    DONE(bindingclay_get_fl(clay, 1, 2), O_RDWR | O_NONBLOCK);
    DONE(put(clay, 1, 0, "abc"), 3);
    FAULT(take(clay, 1, 0, 1), EBADF);
    FAULT(take(clay, 1, 0, 0), EBADF);
    FAULT(put(clay, 1, 1, "a"), EBADF);
    FAULT(put(clay, 1, 1, ""), EBADF);
    READS(clay, 1, 1, 9, "abc");
    /* one that isn't opened for writing keeps its bytes */
    DONE(open_text(clay, 1, "f", O_RDONLY | O_TRUNC), 3);
    HAS_FILE(clay, "f", "abc");
    DONE(open_text(clay, 1, "f", O_RDWR | O_TRUNC), 4);
    HAS_FILE(clay, "f", "");
    READS(clay, 1, 1, 9, "");
    /* a full table; what is wrong with the name comes first */
    for (uint64_t fd = 5; fd <= 255; fd++)
        DONE(bindingclay_dup(clay, 1, 0), fd);
    FAULT(open_text(clay, 1, "f", O_RDONLY), EMFILE);
    FAULT(open_text(clay, 1, "g", O_RDONLY | O_CREAT), EMFILE);
    FAULT(open_text(clay, 1, "g", O_RDONLY), ENOENT);
    FAULT(open_text(clay, 1, "f", O_RDONLY | O_CREAT | O_EXCL), EEXIST);
    bindingclay_free(clay);
}

static void offsets(void)
{
    bindingclay clay = kernel_with_process();
    DONE(open_text(clay, 1, "f", O_RDWR | O_CREAT), 0);
    NEW_PIPE(clay, 1, false);
    for (int i = 0; i < NOT_OPEN_COUNT; i++)
        FAULT(bindingclay_lseek(clay, 1, NOT_OPEN[i], -1, SEEK_SET), EBADF);
    FAULT(bindingclay_lseek(clay, 1, 1, 0, SEEK_CUR), ESPIPE);
    FAULT(bindingclay_lseek(clay, 1, 2, -1, SEEK_SET), ESPIPE);
    /* no place to count from: that is told before all else */
    FAULT(bindingclay_lseek(clay, 1, 0, 0, 3), EINVAL);
    FAULT(bindingclay_lseek(clay, 1, 99, 0, -1), EINVAL);
    FAULT(bindingclay_lseek(clay, 99, 1, 0, INT32_MIN), EINVAL);
    DONE(put(clay, 1, 0, "hello"), 5);
    DONE(bindingclay_lseek(clay, 1, 0, 0, SEEK_CUR), 5);
    DONE(bindingclay_lseek(clay, 1, 0, -4, SEEK_CUR), 1);
    READS(clay, 1, 0, 2, "el");
    DONE(bindingclay_lseek(clay, 1, 0, -5, SEEK_END), 0);
    FAULT(bindingclay_lseek(clay, 1, 0, -6, SEEK_END), EINVAL);
    FAULT(bindingclay_lseek(clay, 1, 0, -1, SEEK_SET), EINVAL);
    FAULT(bindingclay_lseek(clay, 1, 0, INT64_MIN, SEEK_CUR), EINVAL);
    FAULT(bindingclay_lseek(clay, 1, 0, INT64_MAX, SEEK_END), EOVERFLOW);
    DONE(bindingclay_lseek(clay, 1, 0, 0, SEEK_CUR), 0);
    /* past the end there is nothing to read, and a write leaves zeros in the gap */
    DONE(bindingclay_lseek(clay, 1, 0, INT64_MAX, SEEK_SET), INT64_MAX);
    READS(clay, 1, 0, 9, "");
    FAULT(bindingclay_lseek(clay, 1, 0, 1, SEEK_CUR), EOVERFLOW);
    FAULT(put(clay, 1, 0, "a"), EFBIG);
    DONE(put(clay, 1, 0, ""), 0);
    DONE(bindingclay_lseek(clay, 1, 0, 2, SEEK_END), 7);
    DONE(put(clay, 1, 0, "!"), 1);
    uint8_t into[9];
    memset(into, UNTOUCHED, sizeof into);
    DONE(bindingclay_file_bytes(clay, bytes_of("f"), 1, into, sizeof into), 8);
    HOLDS(memcmp(into, "hello\0\0!\xa5", sizeof into) == 0);
    /* what was opened apart has an offset of its own, and a duplicate and a child share one */
    DONE(open_text(clay, 1, "f", O_RDONLY), 3);
    DONE(bindingclay_dup(clay, 1, 3), 4);
    DONE(bindingclay_fork(clay, 1), 2);
    READS(clay, 1, 3, 1, "h");
    READS(clay, 1, 4, 1, "e");
    READS(clay, 2, 3, 1, "l");
    DONE(bindingclay_lseek(clay, 1, 0, 0, SEEK_CUR), 8);
    bindingclay_free(clay);
}

static void appending(void)
{
    bindingclay clay = kernel_with_process();
    DONE(open_text(clay, 1, "f", O_RDWR | O_CREAT | O_APPEND), 0);
    DONE(put(clay, 1, 0, "ab"), 2);
    DONE(bindingclay_lseek(clay, 1, 0, 0, SEEK_SET), 0);
    DONE(put(clay, 1, 0, "cd"), 2);
    HAS_FILE(clay, "f", "abcd");
    DONE(bindingclay_set_fl(clay, 1, 0, 0), 0);
    DONE(bindingclay_lseek(clay, 1, 0, 1, SEEK_SET), 1);
    DONE(put(clay, 1, 0, "XY"), 2);
    HAS_FILE(clay, "f", "aXYd");
    bindingclay_free(clay);
}

static void last_bytes(void)
{
    bindingclay clay = new_kernel(1, 10);
    DONE(bindingclay_start(clay), 1);
    DONE(open_text(clay, 1, "f", O_RDWR | O_CREAT), 0);
    DONE(put(clay, 1, 0, "0123456"), 7);
    DONE(put(clay, 1, 0, "789ab"), 3);
    FAULT(put(clay, 1, 0, "c"), EFBIG);
    DONE(put(clay, 1, 0, ""), 0);
    HAS_FILE(clay, "f", "0123456789");
    DONE(bindingclay_lseek(clay, 1, 0, 9, SEEK_SET), 9);
    DONE(put(clay, 1, 0, "xy"), 1);
    DONE(bindingclay_lseek(clay, 1, 0, 0, SEEK_CUR), 10);
    bindingclay_free(clay);
    /* the greatest file, and one more byte than one write takes */
    clay = kernel_with_process();
    DONE(open_text(clay, 1, "f", O_RDWR | O_CREAT), 0);
    DONE(put_many(clay, 1, 0, BINDINGCLAY_MOST_FILE_BYTES + 1), BINDINGCLAY_MOST_FILE_BYTES);
    FAULT(put(clay, 1, 0, "a"), EFBIG);
    DONE(bindingclay_lseek(clay, 1, 0, 0, SEEK_SET), 0);
    DONE(take(clay, 1, 0, BINDINGCLAY_MOST_FILE_BYTES + 1), BINDINGCLAY_MOST_FILE_BYTES);
    bindingclay_free(clay);
}

static void bytes_of_files(void)
{
    bindingclay clay = new_kernel(1, 100);
    uint8_t into[6];
    memset(into, UNTOUCHED, sizeof into);
    FAULT(bindingclay_file_bytes(clay, bytes_of("f"), 1, into, sizeof into), ENOENT);
    DONE(bindingclay_start(clay), 1);
    DONE(mkfifo_text(clay, 1, "q"), 0);
    FAULT(bindingclay_file_bytes(clay, bytes_of("q"), 1, into, sizeof into), ENOENT);
    DONE(open_text(clay, 1, "f", O_WRONLY | O_CREAT), 0);
    HAS_FILE(clay, "f", "");
    DONE(bindingclay_file_bytes(clay, bytes_of("f"), 1, into, 0), 0);
    DONE(put(clay, 1, 0, "hello"), 5);
    SHORT(bindingclay_file_bytes(clay, bytes_of("f"), 1, into, 4), 5);
    SHORT(bindingclay_file_bytes(clay, bytes_of("f"), 1, into, 0), 5);
    HOLDS(into[0] == UNTOUCHED && into[4] == UNTOUCHED);
    DONE(bindingclay_file_bytes(clay, bytes_of("f"), 1, into, 5), 5);
    HOLDS(memcmp(into, "hello\xa5", sizeof into) == 0);
    /* the file stays with its process gone, for it has a name */
    DONE(bindingclay_exit(clay, 1), 0);
    HAS_FILE(clay, "f", "hello");
    bindingclay_free(clay);
}

static void unlinked(void)
{
    bindingclay clay = kernel_with_process();
    FAULT(unlink_text(clay, 1, "f"), ENOENT);
    DONE(open_text(clay, 1, "f", O_RDWR | O_CREAT), 0);
    DONE(put(clay, 1, 0, "old"), 3);
    DONE(unlink_text(clay, 1, "f"), 0);
    FAULT(open_text(clay, 1, "f", O_RDONLY), ENOENT);
    FAULT(bindingclay_file_bytes(clay, bytes_of("f"), 1, (uint8_t[1]){ 0 }, 1), ENOENT);
    /* it stays while it is open, and one that is made of the name is another */
    DONE(open_text(clay, 1, "f", O_RDWR | O_CREAT | O_EXCL), 1);
    READS(clay, 1, 1, 9, "");
    DONE(bindingclay_lseek(clay, 1, 0, 0, SEEK_SET), 0);
    READS(clay, 1, 0, 9, "old");
    bindingclay_free(clay);
}

int main(void)
{
    names();
    opens();
    offsets();
    appending();
    last_bytes();
    bytes_of_files();
    unlinked();
    return end();
}

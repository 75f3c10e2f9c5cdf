/* FIFOs: mkfifo, opens that succeed, wait, meet and are refused, and how long a FIFO lives (mkfifo; open; unlink; fifo(7)). */
#include "check.h"

#include <fcntl.h>

static void makes(void)
{
    bindingclay clay = kernel_with_process();
    DONE(mkfifo_text(clay, 1, "q"), 0);
    FAULT(mkfifo_text(clay, 1, "q"), EEXIST);
    FAULT(open_text(clay, 1, "q", O_RDWR | O_CREAT | O_EXCL), EEXIST);
    DONE(open_text(clay, 1, "f", O_RDWR | O_CREAT), 0);
    FAULT(mkfifo_text(clay, 1, "f"), EEXIST);
    DONE(open_text(clay, 1, "q", O_RDWR | O_CREAT), 1);
    DONE(bindingclay_get_pipe_sz(clay, 1, 1), 65536);
    FAULT(bindingclay_lseek(clay, 1, 1, 0, SEEK_SET), ESPIPE);
    DONE(put(clay, 1, 1, "both"), 4);
    READS(clay, 1, 1, 9, "both");
    bindingclay_free(clay);
}

static void opens_that_may_not_wait(void)
{
    bindingclay clay = kernel_with_process();
    DONE(mkfifo_text(clay, 1, "q"), 0);
    FAULT(open_text(clay, 1, "q", O_WRONLY | O_NONBLOCK), ENXIO);
    DONE(open_text(clay, 1, "q", O_RDONLY | O_NONBLOCK), 0);
    /* no writer yet: end of file */
    READS(clay, 1, 0, 9, "");
    DONE(open_text(clay, 1, "q", O_WRONLY | O_NONBLOCK), 1);
    DONE(bindingclay_get_fl(clay, 1, 1), O_WRONLY | O_NONBLOCK);
    FAULT(take(clay, 1, 0, 9), EAGAIN);
    DONE(put(clay, 1, 1, "hello"), 5);
    DONE(bindingclay_close(clay, 1, 1), 0);
    READS(clay, 1, 0, 9, "hello");
    READS(clay, 1, 0, 9, "");
    bindingclay_free(clay);
}

static void opens_that_wait(void)
{
    bindingclay clay = kernel_with_process();
    DONE(bindingclay_start(clay), 2);
    DONE(mkfifo_text(clay, 1, "q"), 0);
    PARKED(open_text(clay, 1, "q", O_RDONLY), 1);
    PARKED(again(clay, 1), 1);
    /* it has no descriptor yet, and counts as a reader: a writer finds it */
    NEW_PIPE(clay, 1, false);
    DONE(open_text(clay, 2, "q", O_WRONLY), 0);
    DONE(again(clay, 1), 2);
    DONE(put(clay, 2, 0, "hi"), 2);
    READS(clay, 1, 2, 9, "hi");
    DONE(bindingclay_close(clay, 1, 2), 0);
    FAULT(put(clay, 2, 0, "hi"), EPIPE);
    DONE(bindingclay_close(clay, 2, 0), 0);
    /* a writer comes first, and is interrupted; another one meets, for good */
    PARKED(open_text(clay, 2, "q", O_WRONLY), 2);
    FAULT(bindingclay_interrupt(clay, 2), EINTR);
    OTHER(again(clay, 2), BINDINGCLAY_NO_CALL);
    FAULT(open_text(clay, 2, "q", O_WRONLY | O_NONBLOCK), ENXIO);
    PARKED(open_text(clay, 2, "q", O_WRONLY), 3);
    DONE(open_text(clay, 1, "q", O_RDONLY), 2);
    DONE(bindingclay_close(clay, 1, 2), 0);
    DONE(again(clay, 3), 0);
    FAULT(put(clay, 2, 0, "hi"), EPIPE);
    bindingclay_free(clay);
}

static void full_table_at_resume(void)
{
    bindingclay clay = kernel_with_process();
    DONE(bindingclay_start(clay), 2);
    DONE(mkfifo_text(clay, 1, "q"), 0);
    PARKED(open_text(clay, 1, "q", O_RDONLY), 1);
    DONE(open_text(clay, 2, "q", O_WRONLY), 0);
    for (int i = 0; i < 128; i++)
        NEW_PIPE(clay, 1, false);
    /* the fault ends the open, and its description goes: there is no reader any more */
    FAULT(again(clay, 1), EMFILE);
    OTHER(again(clay, 1), BINDINGCLAY_NO_CALL);
    FAULT(put(clay, 2, 0, "a"), EPIPE);
    bindingclay_free(clay);
}

static void lives(void)
{
    bindingclay clay = kernel_with_process();
    DONE(mkfifo_text(clay, 1, "q"), 0);
    DONE(open_text(clay, 1, "q", O_RDWR | O_NONBLOCK), 0);
    DONE(bindingclay_set_pipe_sz(clay, 1, 0, 4096), 4096);
    DONE(put(clay, 1, 0, "lost"), 4);
    DONE(bindingclay_close(clay, 1, 0), 0);
    /* with its last end the bytes went, and the capacity; the name is left */
    DONE(open_text(clay, 1, "q", O_RDWR | O_NONBLOCK), 0);
    FAULT(take(clay, 1, 0, 9), EAGAIN);
    DONE(bindingclay_get_pipe_sz(clay, 1, 0), 65536);
    DONE(put(clay, 1, 0, "old"), 3);
    DONE(unlink_text(clay, 1, "q"), 0);
    FAULT(unlink_text(clay, 1, "q"), ENOENT);
    FAULT(open_text(clay, 1, "q", O_RDONLY | O_NONBLOCK), ENOENT);
    DONE(mkfifo_text(clay, 1, "q"), 0);
    DONE(open_text(clay, 1, "q", O_RDONLY | O_NONBLOCK), 1);
    READS(clay, 1, 1, 9, "");
    READS(clay, 1, 0, 9, "old");
    bindingclay_free(clay);
}

int main(void)
{
    makes();
    opens_that_may_not_wait();
    opens_that_wait();
    full_table_at_resume();
    lives();
    return end();
}

/* Copies standard input to standard output and to a file, by tee and splice: both ends have to be pipes. */
#define _GNU_SOURCE
#include <fcntl.h>
#include <stdlib.h>
#include <unistd.h>

/* Moves so many bytes from standard input to the file. */
static int move(int file, ssize_t count)
{
    while (count > 0) {
        ssize_t moved = splice(STDIN_FILENO, NULL, file, NULL, (size_t)count, SPLICE_F_MOVE);
        if (moved <= 0)
            return -1;
        count -= moved;
    }
    return 0;
}

int main(int count, char **words)
{
    int file = count == 2 ? open(words[1], O_WRONLY | O_CREAT | O_TRUNC, 0644) : -1;
    if (file < 0)
        return EXIT_FAILURE;
    for (;;) {
        ssize_t copied = tee(STDIN_FILENO, STDOUT_FILENO, 65536, 0);
        if (copied <= 0)
            return copied < 0 ? EXIT_FAILURE : EXIT_SUCCESS;
        if (move(file, copied) != 0)
            return EXIT_FAILURE;
    }
}

/* Makes the calls that a script of pairs asks for, by the host: so many writes and reads of 64 bytes. */
#define _GNU_SOURCE
#include <stdio.h>
#include <stdlib.h>
#include <string.h>
#include <unistd.h>

enum { BYTES = 64 };

int main(int count, char **words)
{
    char bytes[BYTES], into[BYTES];
    int ends[2];
    memset(bytes, 'a', sizeof bytes);
    if (count != 2 || pipe(ends) != 0)
        return 2;
    for (long left = atol(words[1]); left > 0; left--)
        if (write(ends[1], bytes, sizeof bytes) != BYTES || read(ends[0], into, sizeof into) != BYTES) {
            perror("the host");
            return 1;
        }
    return 0;
}

/* The floor: finds the lines of standard input that begin `$$$$`, counts them and judges nothing. */
#include <stdio.h>
#include <string.h>
#include <unistd.h>

static char buffer[65536];

int main(void)
{
    size_t have = 0;
    ssize_t got;
    long count = 0;
    while ((got = read(STDIN_FILENO, buffer + have, sizeof buffer - have)) > 0) {
        const char *at = buffer, *end = buffer + (have += (size_t)got), *lf;
        while ((lf = memchr(at, '\n', (size_t)(end - at))) != NULL) {
            if (lf - at >= 4 && memcmp(at, "$$$$", 4) == 0)
                count++;
            at = lf + 1;
        }
        have = (size_t)(end - at);
        memmove(buffer, at, have);
        if (have == sizeof buffer)          /* a line longer than the buffer: its beginning decides */
            have = 4;
    }
    printf("%ld\n", count);
    return got < 0;
}

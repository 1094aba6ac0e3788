/* Writes the numbers from 1 to 63 that have a sentence of their own. */
#include "../include/capellanote_sentence.h"

int printf(const char *format, ...);

int main(void)
{
    for (capellanote_size number = 1; number < 64; number++)
        if (capellanote_sentence(number) != capellanote_sentence(64))
            printf("%lu %s\n", number, capellanote_sentence(number));
    return 0;
}

/* records FILE NAME: checks an SDfile, then prints a line for each record: its first header line, counts, charge, and the values of the item NAME.
   The status is 0 if the file is good, 1 if it is refused, 2 if it can't be read. */
#include "../include/capellanote.h"

/* Of the C library. Declared here, since the toolchain's compiler has no headers of it. */
int open(const char *path, int flags, ...);
long read(int descriptor, void *bytes, unsigned long length);
int printf(const char *format, ...);
unsigned long strlen(const char *text);
enum { READ_ONLY = 0 };

enum { MOST = 16 << 20 };
static capellanote_byte text[MOST];
static capellanote_int atoms[CAPELLANOTE_ATOMS];
static capellanote_int bonds[CAPELLANOTE_BONDS];

/* The file's length, or -1 where it can't be read or is too long. */
static long fill(const char *path)
{
    int file = open(path, READ_ONLY);
    long length = 0;
    while (file >= 0 && length < MOST) {
        long got = read(file, text + length, MOST - length);
        if (got < 0)
            return -1;
        if (got == 0)
            return length;
        length += got;
    }
    return -1;
}

static int line_length(const capellanote_byte *line)
{
    int n = 0;
    while (line[n] != '\n' && line[n] != '\r')
        n++;
    return n;
}

static void print_record(const capellanote_byte *record, const capellanote_size *next, const char *name)
{
    capellanote_size found[3];
    int charge = 0;
    for (capellanote_size k = 0; k < next[1]; k++)
        charge += atoms[k * CAPELLANOTE_ATOM + 5];
    printf("record %lu: %.*s, %lu atoms, %lu bonds, charge %d", next[11], line_length(record), (const char *)record, next[1], next[2], charge);
    capellanote_find(record, next[4], (const capellanote_byte *)name, strlen(name), found);
    if (found[0] == 0)
        printf(", %s %.*s", name, (int)(found[2] - found[1]), (const char *)record + found[1]);
    printf("\n");
}

int main(int count, char **words)
{
    capellanote_size answer[3], next[13] = { 0 };
    long length = count == 3 ? fill(words[1]) : -1;
    if (length < 0) {
        printf("usage: records FILE NAME, with a file of less than %d bytes that can be read\n", MOST);
        return 2;
    }
    capellanote_check(CAPELLANOTE_SDFILE, text, length, answer);
    if (answer[0] != 0) {
        printf("refused %lu line %lu column %lu\n", answer[0], answer[1], answer[2]);
        return 1;
    }
    printf("accepted %lu\n", answer[1]);
    for (;;) {
        const capellanote_byte *record = text + next[9];
        capellanote_next(text, length, next[9], next[10], next[11], atoms, CAPELLANOTE_ATOMS, bonds, CAPELLANOTE_BONDS, next);
        if (next[12] == 0)
            return 0;
        print_record(record, next, words[2]);
    }
}

/* items FILE: the items of each record of an SDfile by capellanote_step, a line each: record, name and values, line ends between them as /. */
#include "../include/capellanote_items.h"

int open(const char *path, int flags, ...);
long read(int descriptor, void *bytes, unsigned long length);
int printf(const char *format, ...);

static capellanote_byte text[1 << 20];
static capellanote_int atoms[CAPELLANOTE_ATOMS], bonds[CAPELLANOTE_BONDS];

static void show(const capellanote_byte *items, capellanote_size from, capellanote_size to)
{
    for (; from < to; from++)
        if (items[from] != '\r')
            printf("%c", items[from] == '\n' ? '/' : items[from]);
}

int main(int count, char **words)
{
    capellanote_size next[13] = { 0 }, end[8];
    int file = count == 2 ? open(words[1], 0) : -1;
    long length = file < 0 ? -1 : read(file, text, sizeof text);
    while (length >= 0) {
        struct capellanote_item item = { 0, 0, 0, 0, 0 };
        const capellanote_byte *record = text + next[CAPELLANOTE_NEXT_AT];
        capellanote_next(text, length, next[CAPELLANOTE_NEXT_AT], next[CAPELLANOTE_NEXT_LINES], next[CAPELLANOTE_NEXT_RECORDS],
                         atoms, CAPELLANOTE_ATOMS, bonds, CAPELLANOTE_BONDS, next);
        if (next[CAPELLANOTE_NEXT_RECORD] == 0)
            return next[CAPELLANOTE_REFUSED] != 0;
        const capellanote_byte *items = record + next[CAPELLANOTE_READ_ITEMS];
        capellanote_size size = next[CAPELLANOTE_READ_ITEMS_END] - next[CAPELLANOTE_READ_ITEMS];
        while (capellanote_step(items, size, &item)) {
            printf("%lu ", next[CAPELLANOTE_NEXT_RECORDS]);
            show(items, item.name, item.name_end);
            printf("=");
            show(items, item.values, item.values_end);
            printf("\n");
        }
        capellanote_item(record, next[CAPELLANOTE_READ_BYTES], next[CAPELLANOTE_READ_ITEMS_END], end);
        if (item.next != size || end[CAPELLANOTE_REFUSED] || end[CAPELLANOTE_STEP_ITEM] || end[CAPELLANOTE_STEP_NEXT] != next[CAPELLANOTE_READ_BYTES])
            return 3;
    }
    return 2;
}

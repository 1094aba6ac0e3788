/* library CASES: answers a file of cases (docs/VECTORS.md) by the static library, one line for each case. */
#include "../include/capellanote.h"

/* Of the C library, declared here since the toolchain's compiler has no headers of it. */
int open(const char *path, int flags, ...);
long read(int descriptor, void *bytes, unsigned long length);
int printf(const char *format, ...);
unsigned long strlen(const char *text);
int strncmp(const char *a, const char *b, unsigned long length);
void exit(int status);

typedef unsigned long size;
typedef unsigned char byte;
enum { MOST = 4 << 20, ROWS = CAPELLANOTE_LIMIT + 5, ROOM = 131072 };
static char file[MOST + 1];
static char *at = file, *start = file, *end = file;
static int atoms[ROWS * CAPELLANOTE_ATOM], bonds[ROWS * CAPELLANOTE_BOND];
static byte room[ROOM];

static void bad(void)
{
    printf("not a well-formed case: the one that starts at byte %ld\n", (long)(start - file));
    exit(1);
}

/* ---- Numbers and blocks of a case */

static void pass(char c)
{
    if (at == end || *at != c)
        bad();
    at++;
}

/* Digits without a leading zero, at most the number given. */
static size number(size most)
{
    size value = 0;
    char *first = at;
    for (; at < end && '0' <= *at && *at <= '9'; at++) {
        size digit = *at - '0';
        if (digit > most || value > (most - digit) / 10 || (at > first && *first == '0'))
            bad();
        value = 10 * value + digit;
    }
    if (at == first)
        bad();
    return value;
}

static int entry(void)
{
    if (at < end && *at == '-') {
        at++;
        return (int)-(long)number(2147483648);
    }
    return (int)number(2147483647);
}

/* Lines of so many numbers each. */
static void entries(int *table, size rows, size width)
{
    for (size k = 0; k < rows * width; k++) {
        table[k] = entry();
        pass(k % width == width - 1 ? '\n' : ' ');
    }
}

static byte *block(size length)
{
    byte *bytes = (byte *)at;
    if (length > (size)(end - at))
        bad();
    at += length;
    pass('\n');
    return bytes;
}

/* ---- Memory before a case, and digests of it after one */

static void fresh_tables(size a, size b)
{
    for (size k = 0; k < a; k++)
        atoms[k] = 1000003 + (int)k;
    for (size k = 0; k < b; k++)
        bonds[k] = 1000003 + (int)k;
}

static void fresh_room(size length)
{
    for (size k = 0; k < length; k++)
        room[k] = (7 * k + 13) % 251;
}

static size step(size digest, long v)
{
    return (digest * 65599 + (size)(v + 2147483649)) % 4294967291;
}

static void print_table(const char *word, const int *table, size used, size length)
{
    size front = 1, beyond = 1;
    for (size k = 0; k < length; k++)
        *(k < used ? &front : &beyond) = step(k < used ? front : beyond, table[k]);
    printf(" %s %lu %lu", word, front, beyond);
}

static void print_tables(size a, size b)
{
    print_table("atoms", atoms, CAPELLANOTE_ATOMS, a);
    print_table("bonds", bonds, CAPELLANOTE_BONDS, b);
}

static void print_room(size length)
{
    size digest = 1;
    for (size k = 0; k < length; k++)
        digest = step(digest, room[k]);
    printf(" room %lu", digest);
}

static int refused(const size *answer)
{
    if (answer[0] != 0)
        printf("refused %lu line %lu column %lu", answer[0], answer[1], answer[2]);
    return answer[0] != 0;
}

/* ---- Operations, by the numbers of their head line */

/* KIND SIZE */
static void check_case(const size *n)
{
    size answer[3];
    capellanote_check(n[0], block(n[1]), n[1], answer);
    if (!refused(answer))
        printf("accepted %lu", answer[1]);
}

static size words[ROWS * CAPELLANOTE_ROW];

/* Each word as its low and then its high 32 bits. */
static void print_words(size length)
{
    size front = 1, beyond = 1;
    for (size k = 0; k < length; k++) {
        size *digest = k < CAPELLANOTE_ROWS ? &front : &beyond;
        *digest = step(step(*digest, words[k] & 4294967295), words[k] >> 32);
    }
    printf(" rows %lu %lu", front, beyond);
}

/* KIND ATOM_ROOM BOND_ROOM ROW_ROOM SIZE */
static void read_case(const size *n)
{
    size answer[10], a = 16 * n[1], b = 6 * n[2], r = CAPELLANOTE_ROW * n[3];
    fresh_tables(a, b);
    for (size k = 0; k < r; k++)
        words[k] = 1000003 + k;
    capellanote_read(n[0], block(n[4]), n[4], atoms, a, bonds, b, words, r, answer);
    if (!refused(answer))
        printf("accepted %lu %lu %lu %lu 0 %lu %lu %lu", answer[1], answer[2], answer[3], answer[4], answer[6], answer[7], answer[8]);
    printf(" asked %lu", answer[9]);
    print_tables(a, b);
    print_words(r);
}

static unsigned int labels[CAPELLANOTE_LIMIT], heads[CAPELLANOTE_LIMIT], sizes[CAPELLANOTE_LIMIT];

static void fresh_list(unsigned int *list)
{
    for (size k = 0; k < CAPELLANOTE_LIMIT; k++)
        list[k] = 1000003 + k;
}

static void print_list(const char *word, const unsigned int *list)
{
    size digest = 1;
    for (size k = 0; k < CAPELLANOTE_LIMIT; k++)
        digest = step(digest, list[k]);
    printf(" %s %lu", word, digest);
}

/* KIND ATOM_ROOM BOND_ROOM SIZE */
static void pieces_case(const size *n)
{
    size answer[3], a = 16 * n[1], b = 6 * n[2];
    fresh_tables(a, b);
    fresh_list(labels);
    fresh_list(heads);
    fresh_list(sizes);
    capellanote_pieces(n[0], block(n[3]), n[3], atoms, a, bonds, b, labels, heads, sizes, answer);
    if (!refused(answer))
        printf("pieces %lu %lu", answer[1], answer[2]);
    print_list("labels", labels);
    print_list("heads", heads);
    print_list("sizes", sizes);
    print_tables(a, b);
}

/* AT LINES RECORDS ATOM_ROOM BOND_ROOM SIZE */
static void next_case(const size *n)
{
    size answer[13], a = 16 * n[3], b = 6 * n[4];
    fresh_tables(a, b);
    capellanote_next(block(n[5]), n[5], n[0], n[1], n[2], atoms, a, bonds, b, answer);
    if (!refused(answer)) {
        printf(answer[12] ? "record" : "end");
        for (size k = 1; answer[12] && k <= 8; k++)
            printf(" %lu", answer[k]);
        if (answer[12])
            printf(" cursor %lu %lu %lu", answer[9], answer[10], answer[11]);
    }
    print_tables(a, b);
}

/* NAME_SIZE SIZE */
static void fetch_case(const size *n)
{
    size answer[3];
    byte *name = block(n[0]);
    capellanote_find(block(n[1]), n[1], name, n[0], answer);
    if (refused(answer))
        printf(" stretch 0 0");
    else
        printf("found %lu %lu", answer[1], answer[2]);
}

/* AT SIZE: step after step, to the end of the record or a refusal. */
static void items_case(const size *n)
{
    size answer[8], from = n[0];
    byte *text = block(n[1]);
    for (;;) {
        capellanote_item(text, n[1], from, answer);
        if (refused(answer))
            return;
        from = answer[CAPELLANOTE_STEP_NEXT];
        if (!answer[CAPELLANOTE_STEP_ITEM]) {
            printf("end %lu", from);
            return;
        }
        printf("item");
        for (size k = CAPELLANOTE_STEP_NAME; k <= CAPELLANOTE_STEP_LINES; k++)
            printf(" %lu", answer[k]);
        printf(" ");
    }
}

/* RECORDS LINES ENDED ROOM SIZE */
static void feed_case(const size *n)
{
    size answer[5];
    capellanote_feed(n[0], n[1], block(n[4]), n[4], n[2], n[3], answer);
    if (refused(answer))
        return;
    if (answer[1] == CAPELLANOTE_MORE)
        printf("more %lu %lu used %lu", answer[2], answer[3], answer[4]);
    else
        printf(answer[1] == CAPELLANOTE_ACCEPTED ? "accepted %lu" : "too long %lu", answer[2]);
}

/* N M CHIRAL ATOM_ROOM BOND_ROOM ATOMS BONDS HEADER_SIZE ITEMS_SIZE ROOM */
static void write_case(const size *n)
{
    size answer[3], a = 16 * n[3], b = 6 * n[4];
    if (n[5] > n[3] || n[6] > n[4])
        bad();
    fresh_tables(a, b);
    fresh_room(n[9]);
    entries(atoms, n[5], 16);
    entries(bonds, n[6], 6);
    byte *headers = block(n[7]), *items = block(n[8]);
    capellanote_write_record(atoms, a, bonds, b, n[0], n[1], n[2], headers, n[7], items, n[8], room, n[9], answer);
    if (!refused(answer))
        printf("accepted %lu", answer[1]);
    print_room(n[9]);
}

/* KIND ATOM_ROOM BOND_ROOM ROOM SIZE */
static void copy_case(const size *n)
{
    size answer[4], a = 16 * n[1], b = 6 * n[2];
    fresh_tables(a, b);
    fresh_room(n[3]);
    capellanote_copy(n[0], block(n[4]), n[4], atoms, a, bonds, b, room, n[3], answer);
    if (!refused(answer))
        printf("accepted %lu %lu %lu", answer[1], answer[2], answer[3]);
    print_room(n[3]);
    print_tables(a, b);
}

/* ATOM_ROOM BOND_ROOM ROOM SIZE */
static void catalogue_case(const size *n)
{
    size answer[3], a = 16 * n[0], b = 6 * n[1];
    fresh_tables(a, b);
    fresh_room(n[2]);
    capellanote_write_catalogue(block(n[3]), n[3], atoms, a, bonds, b, room, n[2], answer);
    if (!refused(answer))
        printf("accepted %lu", answer[1]);
    print_room(n[2]);
    print_tables(a, b);
}

/* ---- Mending */

enum { LIST = 1 << 16 };
static size list[LIST];

/* ROOM LIST_ROOM SIZE */
static void mend_case(const size *n)
{
    size answer[3], digest = 1;
    for (size k = 0; k < 2 * n[1]; k++)
        list[k] = 1000003 + k;
    fresh_room(n[0]);
    capellanote_mend(block(n[2]), n[2], room, n[0], list, 2 * n[1], answer);
    if (!refused(answer))
        printf("mended %lu %lu", answer[1], answer[2]);
    for (size k = 0; k < 2 * n[1]; k++)
        digest = step(digest, list[k]);
    printf(" list %lu", digest);
    print_room(n[0]);
}

/* ---- Bottles per supplier */

enum { SUPPLIERS = 70 };
static byte names[SUPPLIERS * CAPELLANOTE_SUPPLIER];
static unsigned int lengths[SUPPLIERS], counts[SUPPLIERS];

/* A line of a count, a space and a name; of a name that is too long as much as there is place for. */
static void supplier(size k)
{
    counts[k] = number(4294967295);
    pass(' ');
    lengths[k] = 0;
    for (; at < end && *at != '\n'; at++) {
        if (lengths[k] < CAPELLANOTE_SUPPLIER)
            names[CAPELLANOTE_SUPPLIER * k + lengths[k]] = *at;
        lengths[k]++;
    }
    pass('\n');
}

static size step_list(size digest, size length)
{
    for (size k = 0; k < CAPELLANOTE_SUPPLIER * length; k++)
        digest = step(digest, names[k]);
    for (size k = 0; k < length; k++)
        digest = step(digest, lengths[k]);
    for (size k = 0; k < length; k++)
        digest = step(digest, counts[k]);
    return digest;
}

/* ROOM ENTRIES MISSING TOTAL SIZE */
static void tally_case(const size *n)
{
    size answer[4], length = n[0];
    unsigned int totals[3] = { n[1], n[2], n[3] };
    if (n[1] > length)
        bad();
    for (size k = 0; k < CAPELLANOTE_SUPPLIER * length; k++)
        names[k] = (7 * k + 13) % 251;
    for (size k = 0; k < length; k++)
        lengths[k] = counts[k] = 1000003 + k;
    for (size k = 0; k < n[1]; k++)
        supplier(k);
    capellanote_tally(block(n[4]), n[4], names, CAPELLANOTE_SUPPLIER * length, lengths, length, counts, length, totals, answer);
    if (refused(answer))
        printf(" record %lu", answer[3]);
    else
        printf("accepted %lu", answer[1]);
    printf(" entries %u missing %u total %u list %lu", totals[0], totals[1], totals[2], step_list(1, length));
}

/* ---- Two deliveries compared */

static int new_atoms[ROWS * CAPELLANOTE_ATOM], new_bonds[ROWS * CAPELLANOTE_BOND];
static long differences[LIST];

/* OLD_ATOMS OLD_BONDS NEW_ATOMS NEW_BONDS LIST_ROOM OLD_SIZE NEW_SIZE */
static void changes_case(const size *n)
{
    size answer[3], digest = 1, a = 16 * n[0], b = 6 * n[1], c = 16 * n[2], d = 6 * n[3], length = CAPELLANOTE_DIFFERENCE * n[4];
    fresh_tables(c, d);
    for (size k = 0; k < c; k++)
        new_atoms[k] = atoms[k];
    for (size k = 0; k < d; k++)
        new_bonds[k] = bonds[k];
    fresh_tables(a, b);
    for (size k = 0; k < length; k++)
        differences[k] = 1000003 + k;
    byte *old_text = block(n[5]), *new_text = block(n[6]);
    capellanote_compare(old_text, n[5], new_text, n[6], atoms, a, bonds, b, new_atoms, c, new_bonds, d, differences, length, answer);
    if (!refused(answer))
        printf("changes %lu", answer[1]);
    for (size k = 0; k < length; k++)
        digest = step(digest, differences[k]);
    printf(" list %lu old", digest);
    print_tables(a, b);
    printf(" new");
    print_table("atoms", new_atoms, CAPELLANOTE_ATOMS, c);
    print_table("bonds", new_bonds, CAPELLANOTE_BONDS, d);
}

/* ---- A formula against the structure */

static unsigned int found[CAPELLANOTE_FOUND];

/* ATOM_ROOM BOND_ROOM SIZE */
static void formula_case(const size *n)
{
    size answer[3], digest = 1, a = 16 * n[0], b = 6 * n[1];
    fresh_tables(a, b);
    for (size k = 0; k < CAPELLANOTE_FOUND; k++)
        found[k] = 1000003 + k;
    capellanote_formula(block(n[2]), n[2], atoms, a, bonds, b, found, answer);
    if (!refused(answer))
        printf("differ %lu", answer[1]);
    for (size k = 0; k < CAPELLANOTE_FOUND; k++)
        digest = step(digest, found[k]);
    printf(" found %lu", digest);
    print_tables(a, b);
}

/* ---- The replay of a scanner log */

static unsigned int keys[CAPELLANOTE_KEYS], papers[CAPELLANOTE_LOTS];

/* The digest after the lots: the key's bytes and the paper figure of each. */
static size step_lots(size digest, size lots)
{
    for (size i = 0; i < lots; i++) {
        for (size k = 0; k < 12; k++)
            digest = step(digest, keys[CAPELLANOTE_LOTS * (k / 4) + i] >> 8 * (k % 4) & 255);
        digest = step(digest, papers[i]);
    }
    return digest;
}

static size sum_papers(size lots)
{
    size sum = 0;
    for (size i = 0; i < lots; i++)
        sum += papers[i];
    return sum;
}

/* SIZE */
static void replay_case(const size *n)
{
    size state[3] = { 0, 0, 0 }, answer[6], received = 0, issued = 0, counts = 0, digest = 1, length = n[0];
    long difference[1];
    unsigned char *log = block(length);
    for (size k = 0; k < CAPELLANOTE_KEYS; k++)
        keys[k] = 1000003 + k;
    for (size k = 0; k < CAPELLANOTE_LOTS; k++)
        papers[k] = 1000003 + k;
    do {
        capellanote_replay(log, length, state, keys, papers, answer, difference);
        received += answer[2] == CAPELLANOTE_RECEIVED ? answer[3] : 0;
        issued += answer[2] == CAPELLANOTE_ISSUED ? answer[3] : 0;
        counts += answer[2] == CAPELLANOTE_COUNTED;
        if (answer[2] == CAPELLANOTE_COUNTED)
            digest = step(step(step(step(step(digest, answer[1]), 0), answer[4]), answer[3]), difference[0]);
        if (answer[2] == CAPELLANOTE_SKIPPED)
            digest = step(step(digest, answer[1]), answer[0]);
    } while (answer[2] != CAPELLANOTE_LOG_END && answer[2] != CAPELLANOTE_STOPPED);
    printf("events %lu lots %lu received %lu issued %lu paper %lu counts %lu digest %lu", state[1], state[2], received, issued,
           sum_papers(state[2]), counts, step_lots(digest, state[2]));
    if (answer[2] == CAPELLANOTE_STOPPED)
        printf(" refused %lu event %lu", answer[0], answer[1]);
}

/* The word of a head line, how many numbers follow it, and the greatest that each may be. */
#define ANY 18446744073709551615ul
#define I32 2147483647
static const struct { const char *word; void (*answer)(const size *); size count, most[10]; } operations[] = {
    { "check ", check_case, 2, { 255, MOST } },
    { "read ", read_case, 5, { 255, ROWS, ROWS, ROWS, MOST } },
    { "pieces ", pieces_case, 4, { 255, ROWS, ROWS, MOST } },
    { "next ", next_case, 6, { ANY, ANY, ANY, ROWS, ROWS, MOST } },
    { "fetch ", fetch_case, 2, { MOST, MOST } },
    { "items ", items_case, 2, { ANY, MOST } },
    { "feed ", feed_case, 5, { ANY, ANY, 1, I32, MOST } },
    { "write ", write_case, 10, { I32, I32, I32, ROWS, ROWS, ROWS, ROWS, MOST, MOST, ROOM - 1 } },
    { "copy ", copy_case, 5, { 255, ROWS, ROWS, ROOM - 1, MOST } },
    { "catalogue ", catalogue_case, 4, { ROWS, ROWS, ROOM - 1, MOST } },
    { "formula ", formula_case, 3, { ROWS, ROWS, MOST } },
    { "replay ", replay_case, 1, { MOST } },
    { "tally ", tally_case, 5, { SUPPLIERS, SUPPLIERS, 4294967295, 4294967295, MOST } },
    { "changes ", changes_case, 7, { ROWS, ROWS, ROWS, ROWS, LIST / CAPELLANOTE_DIFFERENCE, MOST, MOST } },
    { "mend ", mend_case, 3, { ROOM - 1, LIST / 2, MOST } },
};

static void answer_case(void)
{
    size numbers[10], k = 0, count = sizeof operations / sizeof *operations;
    start = at;
    while (k < count && strncmp(at, operations[k].word, strlen(operations[k].word)) != 0)
        k++;
    if (k == count)
        bad();
    at += strlen(operations[k].word);
    for (size i = 0; i < operations[k].count; i++) {
        numbers[i] = number(operations[k].most[i]);
        pass(i + 1 < operations[k].count ? ' ' : '\n');
    }
    operations[k].answer(numbers);
    printf("\n");
}

int main(int count, char **words)
{
    int descriptor = count == 2 ? open(words[1], 0) : -1;
    long got = 1;
    while (descriptor >= 0 && got > 0 && end < file + MOST) {
        got = read(descriptor, end, file + MOST - end);
        end += got > 0 ? got : 0;
    }
    if (got != 0) {
        printf("usage: library CASES, a file of less than %d bytes that can be read\n", MOST);
        return 2;
    }
    while (at < end)
        answer_case();
    return 0;
}

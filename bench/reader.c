/* A plain C reader of V2000 molfiles (kind 0) and SDfiles (kind 1): the verdict on a whole file.
 *
 *     reader KIND [FILE]     the file, or standard input; prints one line
 *     reader cases           `check KIND SIZE` cases on standard input (docs/VECTORS.md), one line for each
 *
 * The line is `accepted RECORDS` or `refused NUMBER line LINE column COLUMN`.
 * A file is read through one buffer and judged line by line; nothing of a line is kept but its bonds and listed atoms.
 */
#include <fcntl.h>
#include <stdio.h>
#include <stdlib.h>
#include <string.h>
#include <unistd.h>

enum { PLACES = 999, COLUMNS = 80, VALUE_COLUMNS = 200, ROW = (PLACES + 8) / 8 };

enum place { TITLE, HEADER, COUNTS, ATOM, BOND, PROPERTY, ITEM, VALUE, AFTER_END };

struct reader {
    int kind;
    enum place place;
    int owed;                                    /* lines still owed in this place: header, atoms, bonds */
    int n, m;
    long lines, records;                         /* complete lines judged, records ended */
    int number, column;                          /* the refusal, once there is one */
    unsigned char bonded[PLACES + 1][ROW];       /* bit b of row a, a < b: a bond joins them */
    unsigned char listed[3][ROW];                /* atoms that CHG, RAD, ISO lines have listed */
};

/* ---- Fields. Columns count from 1; `s` is a line filled with spaces to 80 columns. ---- */

static int refuse(struct reader *r, int number, int column)
{
    r->number = number;
    r->column = column;
    return 0;
}

/* Spaces, perhaps a sign, digits, spaces; or all spaces, which is zero. */
static int integer(const char *field, int width, int negatives, int *value)
{
    int i = 0, minus = 0, sum = 0, digits;
    while (i < width && field[i] == ' ')
        i++;
    *value = 0;
    if (i == width)
        return 1;
    if (negatives && (field[i] == '-' || field[i] == '+'))
        minus = field[i++] == '-';
    for (digits = i; i < width && field[i] >= '0' && field[i] <= '9'; i++)
        sum = 10 * sum + (field[i] - '0');
    if (i == digits)
        return 0;
    for (; i < width; i++)
        if (field[i] != ' ')
            return 0;
    *value = minus ? -sum : sum;
    return 1;
}

/* An integer field with its range; a sign is good only where the range has negatives. */
static int within(struct reader *r, const char *s, int column, int width, int low, int high, int *value)
{
    if (!integer(s + column - 1, width, low < 0, value))
        return refuse(r, 7, column);
    if (*value < low || *value > high)
        return refuse(r, 8, column);
    return 1;
}

/* Ten columns: all spaces, or spaces, perhaps a minus, digits, a point in the sixth, four digits. */
static int coordinate(struct reader *r, const char *s, int column)
{
    const char *field = s + column - 1;
    int i = 0;
    while (i < 10 && field[i] == ' ')
        i++;
    if (i == 10)
        return 1;
    if (field[i] == '-')
        i++;
    if (i >= 5 || field[5] != '.')
        return refuse(r, 7, column);
    for (; i < 10; i++)
        if (i != 5 && (field[i] < '0' || field[i] > '9'))
            return refuse(r, 7, column);
    return 1;
}

static int space(struct reader *r, const char *s, int column)
{
    return s[column - 1] == ' ' || refuse(r, 15, column);
}

/* All columns from `column` to the end of the line are spaces. */
static int rest(struct reader *r, const char *s, int length, int column)
{
    for (int i = column - 1; i < length; i++)
        if (s[i] != ' ')
            return refuse(r, 15, i + 1);
    return 1;
}

static const char SYMBOLS[][4] = {
    "H  ", "He ", "Li ", "Be ", "B  ", "C  ", "N  ", "O  ", "F  ", "Ne ", "Na ", "Mg ", "Al ", "Si ", "P  ", "S  ",
    "Cl ", "Ar ", "K  ", "Ca ", "Sc ", "Ti ", "V  ", "Cr ", "Mn ", "Fe ", "Co ", "Ni ", "Cu ", "Zn ", "Ga ", "Ge ",
    "As ", "Se ", "Br ", "Kr ", "Rb ", "Sr ", "Y  ", "Zr ", "Nb ", "Mo ", "Tc ", "Ru ", "Rh ", "Pd ", "Ag ", "Cd ",
    "In ", "Sn ", "Sb ", "Te ", "I  ", "Xe ", "Cs ", "Ba ", "La ", "Ce ", "Pr ", "Nd ", "Pm ", "Sm ", "Eu ", "Gd ",
    "Tb ", "Dy ", "Ho ", "Er ", "Tm ", "Yb ", "Lu ", "Hf ", "Ta ", "W  ", "Re ", "Os ", "Ir ", "Pt ", "Au ", "Hg ",
    "Tl ", "Pb ", "Bi ", "Po ", "At ", "Rn ", "Fr ", "Ra ", "Ac ", "Th ", "Pa ", "U  ", "Np ", "Pu ", "Am ", "Cm ",
    "Bk ", "Cf ", "Es ", "Fm ", "Md ", "No ", "Lr ", "Rf ", "Db ", "Sg ", "Bh ", "Hs ", "Mt ", "Ds ", "Rg ", "Cn ",
    "Nh ", "Fl ", "Mc ", "Lv ", "Ts ", "Og ", "A  ", "Q  ", "*  ", "LP "};

static int symbol(struct reader *r, const char *s, int column)
{
    for (size_t k = 0; k < sizeof SYMBOLS / sizeof *SYMBOLS; k++)
        if (memcmp(s + column - 1, SYMBOLS[k], 3) == 0)
            return 1;
    return refuse(r, 9, column);
}

/* Sets bit k; answers whether it was clear. */
static int first_time(unsigned char *row, int k)
{
    unsigned char bit = (unsigned char)(1 << k % 8);
    if (row[k / 8] & bit)
        return 0;
    row[k / 8] |= bit;
    return 1;
}

/* ---- Lines with columns ---- */

static int title_line(struct reader *r, const char *text, int length)
{
    static const char *const TAGS[] = {"$$$$", "$MDL", "$RXN", "$RDFILE"};
    for (int i = 0; i < length; i++) {
        if (text[i] != '$')
            continue;
        for (int k = 0; k < 4; k++) {
            size_t size = strlen(TAGS[k]);
            if ((size_t)(length - i) >= size && memcmp(text + i, TAGS[k], size) == 0)
                return refuse(r, 5, 1);
        }
    }
    return 1;
}

static int counts_line(struct reader *r, const char *s, int length)
{
    int v;
    if (!within(r, s, 1, 3, 0, PLACES, &r->n) || !within(r, s, 4, 3, 0, PLACES, &r->m))
        return 0;
    if (2 * r->m > r->n * (r->n - 1))
        return refuse(r, 12, 4);
    if (!within(r, s, 7, 3, 0, 0, &v) || !within(r, s, 13, 3, 0, 1, &v) || !within(r, s, 16, 3, 0, 0, &v))
        return 0;
    if (memcmp(s + 33, " V2000", 6) != 0)
        return refuse(r, 6, 34);
    return rest(r, s, length, 40);
}

static int atom_line(struct reader *r, const char *s, int length)
{
    int v;
    return coordinate(r, s, 1) && coordinate(r, s, 11) && coordinate(r, s, 21)
        && space(r, s, 31) && symbol(r, s, 32)
        && within(r, s, 35, 2, -3, 4, &v)        /* mass difference */
        && within(r, s, 37, 3, 0, 7, &v)         /* charge code */
        && within(r, s, 40, 3, 0, 3, &v)         /* parity */
        && within(r, s, 43, 3, 0, 5, &v)         /* hydrogen count */
        && within(r, s, 46, 3, 0, 1, &v)         /* stereo care */
        && within(r, s, 49, 3, 0, 15, &v)        /* valence */
        && within(r, s, 52, 3, 0, 1, &v)         /* H0 */
        && within(r, s, 61, 3, 0, r->n, &v)      /* atom map */
        && within(r, s, 64, 3, 0, 2, &v)         /* inversion */
        && within(r, s, 67, 3, 0, 1, &v)         /* exact change */
        && rest(r, s, length, 70);
}

static int stereo_fits(int type, int stereo)
{
    switch (type) {
    case 1: return stereo == 0 || stereo == 1 || stereo == 4 || stereo == 6;
    case 2: return stereo == 0 || stereo == 3;
    default: return stereo == 0;
    }
}

static int is_centre(int v)
{
    return (v >= -1 && v <= 2) || v == 4 || v == 5 || v == 8 || v == 9 || v == 12 || v == 13;
}

static int bond_line(struct reader *r, const char *s, int length)
{
    int a, b, type, stereo, v;
    if (!within(r, s, 1, 3, 1, r->n, &a) || !within(r, s, 4, 3, 1, r->n, &b)
        || !within(r, s, 7, 3, 1, 8, &type) || !within(r, s, 10, 3, 0, 999, &stereo))
        return 0;
    if (!stereo_fits(type, stereo))
        return refuse(r, 8, 10);
    if (!within(r, s, 16, 3, 0, 2, &v) || !within(r, s, 19, 3, -99, 999, &v))
        return 0;
    if (!is_centre(v))
        return refuse(r, 8, 19);
    if (!rest(r, s, length, 22))
        return 0;
    if (a == b)
        return refuse(r, 10, 1);
    if (!first_time(r->bonded[a < b ? a : b], a < b ? b : a))
        return refuse(r, 11, 1);
    return 1;
}

static int entries(struct reader *r, const char *s, int length, unsigned char *listed, int low, int high)
{
    int count, atom, v;
    if (!within(r, s, 7, 3, 1, 8, &count))
        return 0;
    for (int k = 0; k < count; k++) {
        int column = 10 + 8 * k;
        if (!space(r, s, column) || !within(r, s, column + 1, 3, 1, r->n, &atom))
            return 0;
        if (!first_time(listed, atom))
            return refuse(r, 14, column + 1);
        if (!space(r, s, column + 4) || !within(r, s, column + 5, 3, low, high, &v))
            return 0;
    }
    return rest(r, s, length, 10 + 8 * count);
}

/* ---- Data items ---- */

static int spaces(const char *text, int length)
{
    for (int i = 0; i < length; i++)
        if (text[i] != ' ')
            return 0;
    return 1;
}

static int data_header(const char *text, int length)
{
    int i = 1, name;
    if (length > COLUMNS || length < 5 || text[0] != '>' || text[1] != ' ')
        return 0;
    while (i < length && text[i] == ' ')
        i++;
    if (i == length || text[i] != '<')
        return 0;
    name = ++i;
    while (i < length && text[i] != '<' && text[i] != '>')
        i++;
    if (i == length || text[i] != '>' || i - name < 1 || i - name > 30)
        return 0;
    return spaces(text + i + 1, length - i - 1);
}

static int four_dollars(const char *text, int length)
{
    return length >= 4 && memcmp(text, "$$$$", 4) == 0;
}

/* ---- The record, line by line ---- */

static void enter(struct reader *r, enum place place, int owed)
{
    r->place = place;
    r->owed = owed;
}

/* After the counts line, an atom line or a bond line: where the next line stands. */
static void next_of_table(struct reader *r)
{
    if (r->place == ATOM && r->owed == 0)
        enter(r, BOND, r->m);
    if (r->place == BOND && r->owed == 0)
        enter(r, PROPERTY, 0);
}

static void begin_tables(struct reader *r)
{
    for (int a = 1; a <= r->n; a++)
        memset(r->bonded[a], 0, ROW);
    memset(r->listed, 0, sizeof r->listed);
    enter(r, ATOM, r->n);
    next_of_table(r);
}

static int property_line(struct reader *r, const char *s, int length)
{
    if (memcmp(s, "M  CHG", 6) == 0)
        return entries(r, s, length, r->listed[0], -15, 15);
    if (memcmp(s, "M  RAD", 6) == 0)
        return entries(r, s, length, r->listed[1], 0, 3);
    if (memcmp(s, "M  ISO", 6) == 0)
        return entries(r, s, length, r->listed[2], 1, 999);
    if (memcmp(s, "M  END", 6) != 0)
        return refuse(r, 13, 1);
    enter(r, r->kind == 0 ? AFTER_END : ITEM, 0);
    return rest(r, s, length, 7);
}

static int item_line(struct reader *r, const char *text, int length)
{
    if (data_header(text, length)) {
        enter(r, VALUE, 0);
        return 1;
    }
    if (!four_dollars(text, length) || !spaces(text + 4, length - 4))
        return refuse(r, 16, 1);
    r->records++;
    enter(r, TITLE, 0);
    return 1;
}

static int value_line(struct reader *r, const char *text, int length)
{
    if (spaces(text, length)) {
        enter(r, ITEM, 0);
        return 1;
    }
    if (four_dollars(text, length) || data_header(text, length))
        return refuse(r, 17, 1);
    return 1;
}

/* A line without its LF and CR. Answers 0 if it is refused. */
static int step(struct reader *r, const char *text, size_t size)
{
    size_t limit = r->place == VALUE ? VALUE_COLUMNS : COLUMNS;
    char s[COLUMNS];
    int length = (int)size;
    if (size > limit)
        return refuse(r, 3, (int)limit + 1);
    for (int i = 0; i < length; i++)
        if (text[i] < 32 || text[i] > 126)
            return refuse(r, 4, i + 1);
    switch (r->place) {
    case TITLE:
        enter(r, HEADER, 2);
        return title_line(r, text, length);
    case HEADER:
        if (--r->owed == 0)
            enter(r, COUNTS, 0);
        return 1;
    case ITEM:
        return item_line(r, text, length);
    case VALUE:
        return value_line(r, text, length);
    case AFTER_END:
        return refuse(r, 18, 1);
    default:
        break;
    }
    memset(s, ' ', COLUMNS);
    memcpy(s, text, size);
    switch (r->place) {
    case COUNTS:
        if (!counts_line(r, s, length))
            return 0;
        begin_tables(r);
        return 1;
    case ATOM:
    case BOND:
        if (!(r->place == ATOM ? atom_line(r, s, length) : bond_line(r, s, length)))
            return 0;
        r->owed--;
        next_of_table(r);
        return 1;
    default:
        return property_line(r, s, length);
    }
}

static void start(struct reader *r, int kind)
{
    r->kind = kind;
    enter(r, TITLE, 0);
    r->lines = r->records = 0;
    r->number = r->column = 0;
    if (kind != 0 && kind != 1)
        refuse(r, 1, 0);
}

/* Judges the complete lines of these bytes, up to a refusal; answers how many bytes they take. */
static size_t judge(struct reader *r, const char *bytes, size_t size)
{
    size_t at = 0;
    const char *lf;
    while (r->number == 0 && (lf = memchr(bytes + at, '\n', size - at)) != NULL) {
        size_t length = (size_t)(lf - (bytes + at));
        if (length > 0 && lf[-1] == '\r')
            length--;
        r->lines++;
        step(r, bytes + at, length);
        at = (size_t)(lf - bytes) + 1;
    }
    return at;
}

/* At the end of the bytes, with `left` of them after the last LF. */
static void finish(struct reader *r, size_t left)
{
    if (r->number == 0 && (left > 0 || r->place != (r->kind == 0 ? AFTER_END : TITLE))) {
        r->lines++;
        refuse(r, 19, 1);
    }
    if (r->number == 0)
        printf("accepted %ld\n", r->kind == 0 ? 1 : r->records);
    else if (r->number == 1)
        printf("refused 1 line 0 column 0\n");
    else
        printf("refused %d line %ld column %d\n", r->number, r->lines, r->column);
}

/* ---- Where the bytes come from ---- */

static struct reader reader;
static char buffer[65536];

static int whole_file(int kind, int file)
{
    size_t have = 0;
    ssize_t got = 0;
    start(&reader, kind);
    while (reader.number == 0 && (got = read(file, buffer + have, sizeof buffer - have)) > 0) {
        have += (size_t)got;
        size_t used = judge(&reader, buffer, have);
        have -= used;
        memmove(buffer, buffer + used, have);
        if (have == sizeof buffer)               /* too long at any place: what is kept is too long as well */
            have = sizeof buffer / 2;
    }
    if (got < 0) {
        perror("reader");
        return 1;
    }
    finish(&reader, have);
    return 0;
}

static int cases(void)
{
    int kind;
    size_t size;
    while (scanf("check %d %zu", &kind, &size) == 2 && getchar() == '\n') {
        char *bytes = malloc(size + 1);
        if (bytes == NULL || fread(bytes, 1, size + 1, stdin) != size + 1)
            return 1;
        start(&reader, kind);
        finish(&reader, size - judge(&reader, bytes, size));
        free(bytes);
    }
    return !feof(stdin);
}

int main(int argc, char **argv)
{
    int file = STDIN_FILENO;
    if (argc == 2 && strcmp(argv[1], "cases") == 0)
        return cases();
    if (argc != 2 && argc != 3) {
        fprintf(stderr, "usage: reader KIND [FILE] | reader cases\n");
        return 2;
    }
    if (argc == 3 && (file = open(argv[2], O_RDONLY)) < 0) {
        perror(argv[2]);
        return 1;
    }
    return whole_file(atoi(argv[1]), file);
}

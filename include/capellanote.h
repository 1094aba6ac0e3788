/* Capellanote for C: a proved reader and writer of CTfile V2000 molfiles and SDfiles.

   Build: `library/build` writes target/staticlib/libcapellanote.a and target/sharedlib/libcapellanote.so for x86-64 Linux
   (`library/build --static` the first alone). They need memset and memcpy and nothing else.

   Memory
     The library keeps nothing between calls and asks for no memory of its own but about 105 kB of stack.
     Memory that is lent to one call must not overlap, and nothing else may write it until the call returns.
     A pointer is never null, also where its length is 0, and points to memory that is aligned for its type.
     Lengths count elements: bytes for text, numbers for tables. No length may pass 2^63 - 1 bytes.

   Answers
     answer[0] is 0, or the number of the refusal; answer[1] and answer[2] are then its line and column,
     both counted from 1, and 0 where the refusal names no line. capellanote_replay alone answers with the number of
     an event instead of a line.

   Refusals
      1  kind is neither 0 nor 1
      2  the atom or bond table has room for fewer than CAPELLANOTE_LIMIT; a list of tallies that cannot be added to
      3  line too long (column 81, or 201 where a value line may stand)
      4  byte not allowed (allowed are 32 to 126)
      5  reserved tag in the first header line
      6  version isn't V2000
      7  field malformed (an integer is spaces, a + or - where negatives may stand, digits, spaces; or spaces alone, for 0)
      8  number outside its range or list
      9  symbol unknown
     10  bond ends equal
     11  pair of atoms bonded twice
     12  more bonds than pairs of atoms
     13  property line that isn't M  CHG, M  RAD, M  ISO or M  END
     14  atom listed twice in one property
     15  a column that has to be a space isn't
     16  neither a data header nor a $$$$ line where one must stand
     17  a $$$$ line or a data header where a value line or a blank line must stand
     18  a line after a molfile's M  END, or after the third header line handed to the writer
     19  cut short
     20  the room lent is shorter than the canonical text
     21  tables not writable
     22  record good, no item of that name
     23  supplier above 24 bytes
     24  a 65th supplier
     25  a 1,000,000th record
     26  an event of a scanner log is of an unknown kind
     27  a scanner log is cut inside an event
     28  an issue above the lot's paper figure
     29  a receipt that would make the lot's paper figure more than 1,000,000
     30  a receipt for a 513th lot
     31  the first value line of the FORMULA item is not a formula, or the item has no value line
     32  a formula nests deeper than 8
     33  a formula names an element more than 9,999 times
     34  a symbol in the atom table is no element (119 to 122)
     35  the rows lent are fewer than CAPELLANOTE_ROWS words
     36  the first of two files compared is not good
     37  the second of two files compared is not good
     38  the room lent is shorter than the mended text
     39  the list lent is too short for all entries

   Tables
     An atom is 16 numbers: x, y, z in ten-thousandths, symbol (1 to 118 by atomic number, 119 A, 120 Q, 121 *, 122 LP),
     mass difference, charge, radical, isotope, parity, hydrogen count, stereo care, valence, H0, map, inversion, exact change.
     A bond is 6: first atom, second atom (counted from 1), type, stereo, topology, reacting centre.
     Tables need room for CAPELLANOTE_LIMIT atoms and CAPELLANOTE_LIMIT bonds, whatever the record has. */

#ifndef CAPELLANOTE_H
#define CAPELLANOTE_H

#ifdef __cplusplus
extern "C" {
#endif

typedef unsigned char capellanote_byte;
typedef int capellanote_int;            /* 32 bits, signed */
typedef unsigned int capellanote_count; /* 32 bits */
typedef unsigned long capellanote_size; /* 64 bits */
typedef unsigned long capellanote_word; /* 64 bits */
typedef long capellanote_signed;        /* 64 bits, signed */
typedef char capellanote_widths[sizeof(capellanote_int) == 4 && sizeof(capellanote_size) == 8 && sizeof(capellanote_signed) == 8 ? 1 : -1];

enum { CAPELLANOTE_MOLFILE = 0, CAPELLANOTE_SDFILE = 1 };

/* answer[1] of capellanote_feed where nothing is refused. */
enum { CAPELLANOTE_MORE = 0, CAPELLANOTE_ACCEPTED = 1, CAPELLANOTE_TOO_LONG = 2 };

/* The most atoms, and the most bonds, of a record. */
#define CAPELLANOTE_LIMIT 999

/* Places in an atom's and in a bond's row, and what as many rows take as a record may have. */
enum { CAPELLANOTE_ATOM = 16, CAPELLANOTE_BOND = 6,
       CAPELLANOTE_ATOMS = CAPELLANOTE_LIMIT * CAPELLANOTE_ATOM, CAPELLANOTE_BONDS = CAPELLANOTE_LIMIT * CAPELLANOTE_BOND };

/* Words in an atom's row of bits, and what as many rows take as a record may have atoms: bit b - 1 of the row of atom a, bit 0 the lowest of
   its first word, is 1 where a bond joins a and b. */
enum { CAPELLANOTE_ROW = 16, CAPELLANOTE_ROWS = CAPELLANOTE_LIMIT * CAPELLANOTE_ROW };

/* ---- Names for numbers: refusals, places of a row, places of an answer */

enum { CAPELLANOTE_BAD_KIND = 1, CAPELLANOTE_SHORT_TABLE = 2, CAPELLANOTE_LONG_LINE = 3, CAPELLANOTE_BAD_BYTE = 4,
       CAPELLANOTE_RESERVED_TAG = 5, CAPELLANOTE_NOT_V2000 = 6, CAPELLANOTE_MALFORMED = 7, CAPELLANOTE_OUT_OF_RANGE = 8,
       CAPELLANOTE_UNKNOWN_SYMBOL = 9, CAPELLANOTE_EQUAL_ENDS = 10, CAPELLANOTE_BONDED_TWICE = 11, CAPELLANOTE_MORE_THAN_PAIRS = 12,
       CAPELLANOTE_UNKNOWN_PROPERTY = 13, CAPELLANOTE_LISTED_TWICE = 14, CAPELLANOTE_NOT_A_SPACE = 15, CAPELLANOTE_NO_HEADER = 16,
       CAPELLANOTE_NO_VALUE_OR_BLANK = 17, CAPELLANOTE_LINE_TOO_MANY = 18, CAPELLANOTE_CUT_SHORT = 19, CAPELLANOTE_SHORT_ROOM = 20,
       CAPELLANOTE_UNWRITABLE = 21, CAPELLANOTE_NO_SUCH_ITEM = 22, CAPELLANOTE_LONG_SUPPLIER = 23, CAPELLANOTE_SUPPLIER_TOO_MANY = 24,
       CAPELLANOTE_RECORD_TOO_MANY = 25, CAPELLANOTE_UNKNOWN_EVENT = 26, CAPELLANOTE_CUT_EVENT = 27,
       CAPELLANOTE_ABOVE_PAPER = 28, CAPELLANOTE_ABOVE_MILLION = 29, CAPELLANOTE_LOT_TOO_MANY = 30, CAPELLANOTE_NO_FORMULA = 31,
       CAPELLANOTE_NESTED_TOO_DEEP = 32, CAPELLANOTE_TOO_MANY_ATOMS = 33, CAPELLANOTE_NO_ELEMENT = 34,
       CAPELLANOTE_SHORT_ROWS = 35, CAPELLANOTE_FIRST_NOT_GOOD = 36, CAPELLANOTE_SECOND_NOT_GOOD = 37,
       CAPELLANOTE_SHORT_MENDED = 38, CAPELLANOTE_SHORT_LIST = 39 };

/* atoms[k * CAPELLANOTE_ATOM + CAPELLANOTE_CHARGE] is the charge of atom k + 1. */
enum { CAPELLANOTE_X = 0, CAPELLANOTE_Y = 1, CAPELLANOTE_Z = 2, CAPELLANOTE_SYMBOL = 3, CAPELLANOTE_MASS_DIFFERENCE = 4,
       CAPELLANOTE_CHARGE = 5, CAPELLANOTE_RADICAL = 6, CAPELLANOTE_ISOTOPE = 7, CAPELLANOTE_PARITY = 8, CAPELLANOTE_HYDROGENS = 9,
       CAPELLANOTE_CARE = 10, CAPELLANOTE_VALENCE = 11, CAPELLANOTE_H0 = 12, CAPELLANOTE_MAP = 13, CAPELLANOTE_INVERSION = 14,
       CAPELLANOTE_EXACT = 15 };
enum { CAPELLANOTE_FIRST = 0, CAPELLANOTE_SECOND = 1, CAPELLANOTE_TYPE = 2, CAPELLANOTE_STEREO = 3, CAPELLANOTE_TOPOLOGY = 4,
       CAPELLANOTE_CENTRE = 5 };

/* Of every answer; where it is refused. */
enum { CAPELLANOTE_REFUSED = 0, CAPELLANOTE_LINE = 1, CAPELLANOTE_COLUMN = 2 };
/* Of a record read; the last is that of capellanote_read alone, and those of capellanote_next follow. */
enum { CAPELLANOTE_READ_ATOMS = 1, CAPELLANOTE_READ_BONDS = 2, CAPELLANOTE_READ_CHIRAL = 3, CAPELLANOTE_READ_BYTES = 4,
       CAPELLANOTE_READ_LINES = 5, CAPELLANOTE_READ_HEADER_END = 6, CAPELLANOTE_READ_ITEMS = 7, CAPELLANOTE_READ_ITEMS_END = 8,
       CAPELLANOTE_READ_ROWS = 9 };
enum { CAPELLANOTE_NEXT_AT = 9, CAPELLANOTE_NEXT_LINES = 10, CAPELLANOTE_NEXT_RECORDS = 11, CAPELLANOTE_NEXT_RECORD = 12 };
/* Of an item found; of a text written. */
enum { CAPELLANOTE_ITEM_FROM = 1, CAPELLANOTE_ITEM_TO = 2, CAPELLANOTE_WRITTEN_LENGTH = 1 };
/* Of a step over items. */
enum { CAPELLANOTE_STEP_ITEM = 1, CAPELLANOTE_STEP_NAME = 2, CAPELLANOTE_STEP_NAME_END = 3, CAPELLANOTE_STEP_VALUES = 4,
       CAPELLANOTE_STEP_VALUES_END = 5, CAPELLANOTE_STEP_NEXT = 6, CAPELLANOTE_STEP_LINES = 7 };

/* A whole file.
   Accepted: answer = { 0, number of records, 0 }. Nothing else is written. */
void capellanote_check(capellanote_byte kind,
                       const capellanote_byte *text, capellanote_size text_length,
                       capellanote_size answer[3]);

/* One record. The text of an SDfile's record begins where the record begins, and what follows its $$$$ line is not looked at;
   a molfile's record is the whole text.
   Accepted: answer = { 0, atoms, bonds, chiral, bytes of the record, lines of the record,
   end of the header lines, start of the items, end of the items, rows asked }: header lines begin at 0, ends are just past the last byte.
   The tables hold the rows, and zeros up to CAPELLANOTE_LIMIT rows; the rows of bits say the record's pairs, each bond in the rows of both
   its atoms, and those of unused atoms are zero. Refused: answer[3] to answer[8] are 0; after 1, 2 and 35 tables and rows are as they were,
   after any other number their first CAPELLANOTE_LIMIT rows are zeros. Memory past those is never written.
   Rows asked, answer[9], accepted or refused: one for each bond line that came to the check for repeated pairs, the repeated one included;
   0 after 1, 2 and 35. */
void capellanote_read(capellanote_byte kind,
                      const capellanote_byte *text, capellanote_size text_length,
                      capellanote_int *atoms, capellanote_size atoms_length,
                      capellanote_int *bonds, capellanote_size bonds_length,
                      capellanote_word *rows, capellanote_size rows_length,
                      capellanote_size answer[10]);

/* One record, as capellanote_read takes it, and its pieces. Two atoms are in one piece if a chain of bonds of any types joins them.
   Accepted: answer = { 0, atoms, pieces }: labels[i] is the lowest atom of the piece of atom i + 1; heads[j] is the lowest atom of piece
   j + 1, in rising order, and sizes[j] the number of its atoms; zeros follow in each list up to CAPELLANOTE_LIMIT numbers.
   The tables are as capellanote_read leaves them. No rows are lent, so 35 is never given; else refused as capellanote_read refuses: after 1
   and 2 nothing else is written, after any other number the lists are zeros. */
void capellanote_pieces(capellanote_byte kind,
                        const capellanote_byte *text, capellanote_size text_length,
                        capellanote_int *atoms, capellanote_size atoms_length,
                        capellanote_int *bonds, capellanote_size bonds_length,
                        capellanote_count labels[CAPELLANOTE_LIMIT],
                        capellanote_count heads[CAPELLANOTE_LIMIT],
                        capellanote_count sizes[CAPELLANOTE_LIMIT],
                        capellanote_size answer[3]);

/* A file's records, one after the other. The cursor is three numbers, the bytes, lines and records of the file that come before it:
   all 0 at the file's start, and then those of the answer before.
   A record: answer[0] to answer[8] as of capellanote_read, with places counted from the record's first byte; answer[9] to answer[11] are
   the cursor past it, and answer[12] is 1. The tables are as capellanote_read leaves them.
   The end of the file, also for a cursor that no walk over this file gives (past its bytes, more lines than bytes, more records than lines):
   answer[9] to answer[11] are the cursor handed in, all other numbers are 0, and the tables are as they were.
   Refused: the line counts from the file's start, answer[9] to answer[11] are the cursor handed in, answer[3] to answer[8] and answer[12]
   are 0; after 2 the tables are as they were, after any other number their first CAPELLANOTE_LIMIT rows are zeros. */
void capellanote_next(const capellanote_byte *text, capellanote_size text_length,
                      capellanote_size at, capellanote_size lines, capellanote_size records,
                      capellanote_int *atoms, capellanote_size atoms_length,
                      capellanote_int *bonds, capellanote_size bonds_length,
                      capellanote_size answer[13]);

/* The values of the first item of that name in an SDfile's record.
   Found: answer = { 0, start, end } in the text, from the first value line's start to the last one's end, with the line ends between;
   both 0 where the item has no value lines. */
void capellanote_find(const capellanote_byte *text, capellanote_size text_length,
                      const capellanote_byte *name, capellanote_size name_length,
                      capellanote_size answer[3]);

/* The item whose data header starts at a place of the text, or the record's last line there: a step over a record's items. From answer[7] of a
   record read, and then from each answer's [6], the steps come to all of its items in their order, and then to its end. Any place will do.
   An item: answer = { 0, 1, start and end of the name, start and end of the values, what comes next, lines }: places count from the text's first
   byte, those of the values are as of capellanote_find.
   A $$$$ line: answer = { 0, 0, 0, 0, 0, 0, what comes next, 1 }.
   Refused as these lines of a record are, with 3, 4, 16, 17 or 19: the line counts from that place, and answer[3] to answer[7] are 0. */
void capellanote_item(const capellanote_byte *text, capellanote_size text_length,
                      capellanote_size at,
                      capellanote_size answer[8]);

/* The records of an SDfile that comes in parts, counted. A part begins where a record begins and is never longer than the room, a number of bytes;
   ended is 0 while input follows the part, and any other number where none does. On a part as long as the room it has to be right,
   on a shorter one 0 will do until the end is known. Records and lines are those done with: 0 and 0 at first, and then those of the answer before.
   More: answer = { 0, CAPELLANOTE_MORE, records, lines, bytes used }: the next part begins after the bytes used.
   The input has ended, and is good: answer = { 0, CAPELLANOTE_ACCEPTED, records, 0, 0 }.
   A record does not end within the room, and input follows: answer = { 0, CAPELLANOTE_TOO_LONG, number of the record, 0, 0 }.
   Refused: the line counts from the input's start; answer[3] and answer[4] are 0. Counts stop at 2^64 - 1. Nothing else is written. */
void capellanote_feed(capellanote_size records, capellanote_size lines,
                      const capellanote_byte *part, capellanote_size part_length,
                      capellanote_byte ended, capellanote_size room,
                      capellanote_size answer[5]);

/* The canonical text of a record. Header lines (exactly three) and data items come as they stand in a file.
   Judged in this order: 2, 21, header lines, items, 20; a line counts within the part refused.
   Accepted: answer = { 0, length of the text, 0 }: the text stands at the front of the room, and the rest of it is as it was.
   Refused: nothing is written. */
void capellanote_write_record(const capellanote_int *atoms, capellanote_size atoms_length,
                              const capellanote_int *bonds, capellanote_size bonds_length,
                              capellanote_count atom_count, capellanote_count bond_count, capellanote_count chiral,
                              const capellanote_byte *headers, capellanote_size headers_length,
                              const capellanote_byte *items, capellanote_size items_length,
                              capellanote_byte *room, capellanote_size room_length,
                              capellanote_size answer[3]);

/* A record as capellanote_read takes it, in its canonical form; a molfile's is that of a record without items.
   Judged in this order: 1, 2, the record, 20.
   Accepted: answer = { 0, bytes of the record, lines of the record, length of the text }: the text stands at the front of the room,
   and the rest of it is as it was. Refused: answer[3] is 0, and nothing is written to the room.
   The tables are as capellanote_read leaves them; after 20 that is with the rows of the record. */
void capellanote_copy(capellanote_byte kind,
                      const capellanote_byte *text, capellanote_size text_length,
                      capellanote_int *atoms, capellanote_size atoms_length,
                      capellanote_int *bonds, capellanote_size bonds_length,
                      capellanote_byte *room, capellanote_size room_length,
                      capellanote_size answer[4]);

/* The canonical text of a whole SDfile; the tables are for the work in between.
   Judged in this order: 2, the file, 20 on the whole text.
   Accepted: answer = { 0, length of the text, number of records }: the text stands at the front of the room, and the rest of it is as it was.
   Refused: nothing is written to the room. Except after 2, the first CAPELLANOTE_LIMIT rows of both tables end as zeros. */
void capellanote_write_catalogue(const capellanote_byte *text, capellanote_size text_length,
                                 capellanote_int *atoms, capellanote_size atoms_length,
                                 capellanote_int *bonds, capellanote_size bonds_length,
                                 capellanote_byte *room, capellanote_size room_length,
                                 capellanote_size answer[3]);

/* ---- Two files compared */

enum { CAPELLANOTE_DIFFERENCE = 7 };

/* What differs between two SDfiles, record by record; the four tables are for the work in between.
   A difference is seven numbers: record, part, place, field, side, left, right. Numbers count from 1, and are 0 where there is none.
   Parts: 1 header line (place: its number), 2 number of atoms, 3 number of bonds, 4 chiral, 5 atom and 6 bond (place: its number up to the
   smaller count, field: the number in its row), 7 name of an item (place: the item), 8 value line (place: the item, field: the line), 9 item
   (place: the item) and 10 record that stands on one side only, listed once. Side: 0 on both, 1 in the first file only, 2 in the second only.
   Left and right are both figures where figures differ, and 0 for texts.
   Judged in this order: 2, 36 and 37 with the line and column of that file's own refusal, 39.
   Accepted: answer = { 0, number of differences, 0 }: they stand at the front of the list, and the rest of it is as it was.
   Refused: nothing is written to the list. Except after 2, the first CAPELLANOTE_LIMIT rows of the tables end as zeros. */
void capellanote_compare(const capellanote_byte *old_text, capellanote_size old_length,
                         const capellanote_byte *new_text, capellanote_size new_length,
                         capellanote_int *old_atoms, capellanote_size old_atoms_length,
                         capellanote_int *old_bonds, capellanote_size old_bonds_length,
                         capellanote_int *new_atoms, capellanote_size new_atoms_length,
                         capellanote_int *new_bonds, capellanote_size new_bonds_length,
                         capellanote_signed *list, capellanote_size list_length,
                         capellanote_size answer[3]);

/* ---- A formula against the structure */

enum { CAPELLANOTE_FOUND = 118 * 3 };

/* The formula of the record of an SDfile that the bytes begin with, held against its atoms. The formula is the first value line of the first
   item named FORMULA: one or more units, a unit being an element symbol or one or more units in round parentheses, and then no count or one from
   2 to 999 without leading zeros.
   Judged in this order: 2, the record, 22, 31, 32, 33, 34; from 22 on no line and no column.
   Accepted: answer = { 0, number of elements that differ, 0 }: for each of them, by rising element number, found holds the element, how many of
   it the formula names and how many are drawn; then zeros. Hydrogen is not compared.
   Refused: after 2 nothing is written but the answer; after any other found is all zeros. The tables are as capellanote_read leaves them; from 22
   on that is with the rows of the record. */
void capellanote_formula(const capellanote_byte *text, capellanote_size text_length,
                         capellanote_int *atoms, capellanote_size atoms_length,
                         capellanote_int *bonds, capellanote_size bonds_length,
                         capellanote_count found[CAPELLANOTE_FOUND],
                         capellanote_size answer[3]);

/* ---- A file mended */

/* What was done at a line. */
enum { CAPELLANOTE_BLANK_PUT = 1, CAPELLANOTE_BLANK_DROPPED = 2, CAPELLANOTE_LINE_ENDED = 3 };

/* An SDfile with what can be mended mended, and no more: an empty line is put before a data header or a $$$$ line that stands where a value line or
   the blank line after the values must stand; a blank line is dropped where a data header or $$$$ must stand; blank lines after the last record are
   dropped; the line end that is missing at the very end is added. All other lines come out byte for byte.
   Then the mended text is judged as an SDfile, and 38 and then 39 are given, both without a line.
   Accepted: answer = { 0, length of the mended text, number of repairs }: the text stands at the front of the room; the list holds two numbers for
   each repair, in line order, its line in the text as it came and what was done. The rest of room and list is as it was.
   Refused: nothing is written but the answer; its line counts in the mended text.
   The list has room for list_length / 2 repairs. A mended text has at most 2 * text_length + 1 bytes. */
void capellanote_mend(const capellanote_byte *text, capellanote_size text_length,
                      capellanote_byte *room, capellanote_size room_length,
                      capellanote_size *list, capellanote_size list_length,
                      capellanote_size answer[3]);

/* ---- The replay of a scanner log */

enum { CAPELLANOTE_LOTS = 512, CAPELLANOTE_KEYS = 3 * 512 };

/* answer[2] of capellanote_replay. */
enum { CAPELLANOTE_LOG_END = 0, CAPELLANOTE_RECEIVED = 1, CAPELLANOTE_ISSUED = 2, CAPELLANOTE_COUNTED = 3, CAPELLANOTE_DAY = 4,
       CAPELLANOTE_SKIPPED = 5, CAPELLANOTE_STOPPED = 6 };

/* The next event of a scanner log. state = { place in the log, events before it, lots in the store }: all 0 at first; the call leaves it
   past the event. Keys and papers hold the store between calls and need not be cleared before the first: the paper figure of lot i, from 0 in the
   order of first receipts, is papers[i], and the 12 bytes of its supplier and lot are keys[i], keys[512 + i] and keys[1024 + i], four bytes each,
   the low one first.
   answer = { 0 or the refusal, number of the event from 1, what it is, quantity, paper figure, place of the lot }:
   CAPELLANOTE_RECEIVED, CAPELLANOTE_ISSUED: the quantity, and two zeros.
   CAPELLANOTE_COUNTED: quantity on the shelf, paper figure, place of the lot, which is the number of lots for one never received;
   difference[0] is paper minus shelf, and 0 in every other case.
   CAPELLANOTE_DAY: three zeros.
   CAPELLANOTE_SKIPPED: 28, 29 or 30; three zeros; only the state has changed.
   CAPELLANOTE_STOPPED: 26 or 27; three zeros; nothing else has changed.
   CAPELLANOTE_LOG_END: all numbers are 0, and nothing else has changed; also for a state that no replay can have come to (past the log,
   above 512 lots, 2^63 events).
   An event takes at most 15 bytes. Where fewer are left and more of the log follows, hand them over again with what follows, and state[0] = 0. */
void capellanote_replay(const capellanote_byte *log, capellanote_size log_length,
                        capellanote_size state[3],
                        capellanote_count keys[CAPELLANOTE_KEYS], capellanote_count papers[CAPELLANOTE_LOTS],
                        capellanote_size answer[6], capellanote_signed difference[1]);

/* ---- Bottles per supplier */

enum { CAPELLANOTE_SUPPLIERS = 64, CAPELLANOTE_SUPPLIER = 24 };

/* The records of an SDfile added to a list that is lent, one entry for each supplier, in rising byte order: entry i has its name at names[24 i],
   of lengths[i] bytes, and its number of records in counts[i]; totals = { entries in use, records without a supplier, all records }. An empty list
   has totals of zeros. The supplier is the first value line of the first item named SUPPLIER.
   Judged in this order: 2 (room for fewer than 64 entries, more than 64 in use, a name above 24 bytes, names that do not rise, counts and missing
   that do not make the total, a total above 999,999); the file; then record by record 25, 23, 24, with line and column 0.
   Accepted: answer = { 0, records added, 0, 0 }. Bytes past a name are not looked at and move with their entry; new entries have zeros there.
   Refused: answer = { number, line, column, the record that met 23, 24 or 25, else 0 }, and nothing else is written. */
void capellanote_tally(const capellanote_byte *text, capellanote_size text_length,
                       capellanote_byte *names, capellanote_size names_length,
                       capellanote_count *lengths, capellanote_size lengths_length,
                       capellanote_count *counts, capellanote_size counts_length,
                       capellanote_count totals[3], capellanote_size answer[4]);

#ifdef __cplusplus
}
#endif

#endif

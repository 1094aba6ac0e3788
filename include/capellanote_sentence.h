/* A sentence for the number of a refusal (answer[0]), for people. It never is null, and stays as long as the program. */
#ifndef CAPELLANOTE_SENTENCE_H
#define CAPELLANOTE_SENTENCE_H

#include "capellanote.h"

static inline const char *capellanote_sentence(capellanote_size number)
{
    switch (number) {
    case 0: return "accepted";
    case CAPELLANOTE_BAD_KIND: return "the kind of file is neither 0, a molfile, nor 1, an SDfile";
    case CAPELLANOTE_SHORT_TABLE: return "a table lent has room for fewer rows than a record may have";
    case CAPELLANOTE_LONG_LINE: return "the line has more columns than may stand there";
    case CAPELLANOTE_BAD_BYTE: return "a byte that is not allowed; lines hold printable ASCII, bytes 32 to 126";
    case CAPELLANOTE_RESERVED_TAG: return "$$$$, $MDL, $RXN or $RDFILE in the first header line";
    case CAPELLANOTE_NOT_V2000: return "columns 34 to 39 of the counts line are not ' V2000'";
    case CAPELLANOTE_MALFORMED: return "a number is malformed";
    case CAPELLANOTE_OUT_OF_RANGE: return "a number outside the range or list that its field allows";
    case CAPELLANOTE_UNKNOWN_SYMBOL: return "an unknown symbol";
    case CAPELLANOTE_EQUAL_ENDS: return "both ends of the bond are the same atom";
    case CAPELLANOTE_BONDED_TWICE: return "an earlier bond line joins the same two atoms";
    case CAPELLANOTE_MORE_THAN_PAIRS: return "more bonds than there are pairs of atoms";
    case CAPELLANOTE_UNKNOWN_PROPERTY: return "a line that is none of 'M  CHG', 'M  RAD', 'M  ISO' and 'M  END'";
    case CAPELLANOTE_LISTED_TWICE: return "the atom is listed a second time for this property";
    case CAPELLANOTE_NOT_A_SPACE: return "a column that must be a space is not one";
    case CAPELLANOTE_NO_HEADER: return "neither a data header, as '>  <NAME>', nor a $$$$ line";
    case CAPELLANOTE_NO_VALUE_OR_BLANK: return "a data header or $$$$ line where a value line or the blank line after the values must stand";
    case CAPELLANOTE_LINE_TOO_MANY: return "a line after 'M  END', or after the third header line handed to the writer";
    case CAPELLANOTE_CUT_SHORT: return "cut short; the text ends where more must follow";
    case CAPELLANOTE_SHORT_ROOM: return "the room lent is shorter than the canonical text";
    case CAPELLANOTE_UNWRITABLE: return "the tables hold numbers that cannot be written";
    case CAPELLANOTE_NO_SUCH_ITEM: return "the record is good and no item has that name";
    case CAPELLANOTE_LONG_SUPPLIER: return "the supplier of a record has more than 24 bytes";
    case CAPELLANOTE_SUPPLIER_TOO_MANY: return "a record has a 65th supplier, one more than the list holds";
    case CAPELLANOTE_RECORD_TOO_MANY: return "a 1,000,000th record, one more than the list counts";
    case CAPELLANOTE_UNKNOWN_EVENT: return "an unknown kind of event";
    case CAPELLANOTE_CUT_EVENT: return "the log ends inside an event";
    case CAPELLANOTE_ABOVE_PAPER: return "an issue above the lot's paper figure";
    case CAPELLANOTE_ABOVE_MILLION: return "a receipt that would make the lot's paper figure more than 1,000,000";
    case CAPELLANOTE_LOT_TOO_MANY: return "a receipt for a 513th lot";
    case CAPELLANOTE_NO_FORMULA: return "the first value line of the FORMULA item is no formula, or the item has no value line";
    case CAPELLANOTE_NESTED_TOO_DEEP: return "groups of the formula are nested more than 8 deep";
    case CAPELLANOTE_TOO_MANY_ATOMS: return "the formula has more than 9,999 atoms of an element";
    case CAPELLANOTE_NO_ELEMENT: return "an atom is A, Q, * or LP, so the record cannot be compared with a formula";
    case CAPELLANOTE_SHORT_ROWS: return "the rows lent have room for fewer than a record may have";
    case CAPELLANOTE_FIRST_NOT_GOOD: return "the first of two files compared is not good";
    case CAPELLANOTE_SECOND_NOT_GOOD: return "the second of two files compared is not good";
    case CAPELLANOTE_SHORT_MENDED: return "the room lent is shorter than the mended text";
    case CAPELLANOTE_SHORT_LIST: return "the list lent is too short for all entries";
    }
    return "no sentence for this number";
}

#endif

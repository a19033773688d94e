/*
 * Rafttwine for C and C++: prices of an article or of a whole basket, price calendars, final article numbers, packaging data and line
 * texts for planning tools; the conditions that a maker's relation derives; and a maker's own price file, read to price records and
 * written from them.
 *
 * A maker's price rows stand in a price book, a string of bytes that was packed beforehand; what the lines of a price are called stands
 * in text books. A tool lends a book together with a question: which article, on which day, how many, and which conditions the planned
 * piece grants. The calls work on lent bytes alone and are proved to answer by the rules, on every input.
 *
 * Four files go with this header, in share/doc/rafttwine where it is installed: FORMAT.md has the bytes of price books, questions,
 * property lists and text books in tables, for whoever packs them, and the lines of price files; CALLS.md has each call with an
 * example, and with the smallest input for each of its refusals; RELATIONS.md has the grammar of relations and what they mean; price.c
 * is a whole program. In the source they are docs/FORMAT.md, docs/CALLS.md, docs/RELATIONS.md and examples/c/price.c.
 *
 * WHAT YOU MAY COUNT ON
 *
 * - Lend any bytes of any length. What is no book, or no question, or has no answer gets a refusal number, in a fixed order. Beside a
 *   refusal every other field is 0, but for the place beside 13 to 16; and no lent byte is written.
 * - A call that is not refused writes the front of the lent output, and leaves what stands behind that as it was.
 * - Every call returns. None keeps or shares anything: no heap, no globals, no locks, no files, no clock, no locale, no errno. So any
 *   number of threads may call at once, over the same book too, and the same bytes always give the same answer.
 * - Of the C library only memcpy and memset are called.
 * - A calendar takes at most RAFTTWINE_CALENDAR_STACK_BYTES of stack, a basket at most RAFTTWINE_BASKET_STACK_BYTES, the reader of price
 *   files at most RAFTTWINE_READER_STACK_BYTES, any other call at most RAFTTWINE_STACK_BYTES. This is measured and not proved: a test
 *   makes each call on a painted stack and fails if more of it was touched. What a program's loader takes to find memcpy and memset at
 *   the first call is in it.
 *
 * WHAT YOU OWE
 *
 * No call can see whether you kept to this, and where you did not, nothing is promised.
 *
 * - A pointer leads to as many bytes, or list records, as the length behind it says. They can be read, and those of an output written.
 * - Until the call returns nobody else writes what you lent, and nobody else reads an output. So threads may share a book, and each
 *   has an output of its own.
 * - An output overlaps no input. Inputs may overlap: the asked text book may be the fallback too.
 * - A list of rafttwine_stretch is aligned as that type is. Bytes may start anywhere.
 * - Where a length is 0 the pointer is not followed. It may then be null.
 * - You look at the field `number` of an answer before you use the rest, and in a basket at the number in front of each answer: a
 *   refused price is 0 cents, which is also a price.
 * - A library that is loaded at run time has the first version number of this header. See rafttwine_version.
 *
 * WHAT A QUESTION LOOKS LIKE
 *
 * Numbers are big-endian. A name is a byte with its length and then that many Latin-1 bytes, each 32 to 126 or 160 to 255.
 *
 *   4 bytes   the length of the whole question, these four included
 *   1 byte    the version, 1 or 2
 *   a name    the article's number, of 1 to 40 bytes
 *   1 byte    'S' for sale prices, 'P' for purchase prices
 *   3 bytes   the currency you would like, three capitals; three zeros if any will do
 *   4 bytes   the day, as the number yyyymmdd
 *   4 bytes   the quantity, 1 to 100000
 *   1 byte    how many conditions are granted, at most 32; then for each of them
 *                a name    of 1 to 20 bytes. Small letters count as capitals: a to z, and bytes 224 to 254 but 247
 *                2 bytes   in version 2 alone: its factor in thousandths, 0 to RAFTTWINE_MOST_FACTOR
 *             A condition's place is its position in this list, from 1
 *   1 byte    how many properties there are, at most 32; then for each of them
 *                1 byte   its width in the final article number, 1 to 30
 *                1 byte   0 if it has a value, 1 if it is hidden, 2 if nothing is selected
 *                a name   its value, of 1 to width bytes without spaces (32, 160) and backslashes; empty if it has none
 *
 * Nothing stands behind that; in a basket, the next question does.
 *
 * A factor is for surcharges by the metre and the like: every line that its condition brings has its row's amount times the factor, and
 * is rounded after that. 2500 is two and a half times; with 0 there is a line all the same, of nothing before it is rounded. Where a name
 * is repeated its first factor counts, and the others have to be in range like any. A question of version 1 says the same as one of
 * version 2 with RAFTTWINE_FACTOR_ONE behind each name. Every call takes both, and a basket may hold both.
 *
 *   00 00 00 1d  02  02 'A' '1'  'S'  00 00 00  01 34 d8 f6  00 00 00 01  01  04 'E' 'D' 'G' 'E' 09 c4  00
 *
 * asks for one A1 on 30 June 2024 in any currency, with 2.5 times EDGE granted and without properties.
 */
#ifndef RAFTTWINE_H
#define RAFTTWINE_H

#include <stddef.h>
#include <stdint.h>

#ifdef __cplusplus
extern "C" {
#endif

/* This header's version. The first number changes when a program has to be compiled anew, the second when something is added. */
#define RAFTTWINE_VERSION_MAJOR 2
#define RAFTTWINE_VERSION_MINOR 3
#define RAFTTWINE_VERSION_PATCH 0
/* As one number that grows from version to version, and as text with dots between. */
#define RAFTTWINE_VERSION_NUMBER (RAFTTWINE_VERSION_MAJOR * 10000 + RAFTTWINE_VERSION_MINOR * 100 + RAFTTWINE_VERSION_PATCH)
#define RAFTTWINE_VERSION RAFTTWINE_DOTTED(RAFTTWINE_VERSION_MAJOR, RAFTTWINE_VERSION_MINOR, RAFTTWINE_VERSION_PATCH)
#define RAFTTWINE_DOTTED(major, minor, patch) RAFTTWINE_QUOTED(major) "." RAFTTWINE_QUOTED(minor) "." RAFTTWINE_QUOTED(patch)
#define RAFTTWINE_QUOTED(number) #number

/* The version of the library that the program runs with, as RAFTTWINE_VERSION_NUMBER is that of the header it was compiled with.
 * The library serves the program if the first numbers are the same and the library is not the older one:
 *
 *   rafttwine_version() / 10000 == RAFTTWINE_VERSION_MAJOR && rafttwine_version() >= RAFTTWINE_VERSION_NUMBER */
uint32_t rafttwine_version(void);

/* More stack than a call takes. */
#define RAFTTWINE_STACK_BYTES 65536
#define RAFTTWINE_BASKET_STACK_BYTES 262144
#define RAFTTWINE_CALENDAR_STACK_BYTES 262144
#define RAFTTWINE_READER_STACK_BYTES 1048576

/* What stands in the field `number` of every answer, in `refusal` of a stretch, and in front of each answer of a basket. */
enum rafttwine_refusal {
    RAFTTWINE_DONE = 0,               /* not refused: the other fields hold the answer */
    RAFTTWINE_BROKEN_BOOK = 1,        /* the price book, or one of the two text books, is not laid out as such a book */
    RAFTTWINE_BROKEN_QUESTION = 2,    /* a question or a property list is not laid out as here, a day is not in the calendar, a basket
                                         has too many questions, or one grants names beside a relation */
    RAFTTWINE_NO_ARTICLE = 3,         /* the book does not have the article */
    RAFTTWINE_NO_BASE_LINE = 4,       /* no base price of the article holds: it has no price that day, in that quantity */
    RAFTTWINE_MIXED_CURRENCIES = 5,   /* a fixed amount among the lines is in another currency than the first base line */
    RAFTTWINE_TOTAL_OUT_OF_RANGE = 6, /* adding up the lines, the total went beyond a thousand million cents, up or down */
    RAFTTWINE_SHORT_OUTPUT = 7,       /* the lent output is shorter than what is to be written */
    RAFTTWINE_NO_PACKAGING = 8,       /* the book has no packaging data for the plain article, no condition granted */
    RAFTTWINE_BAD_PERIOD = 9,         /* the period's end is not in the calendar, or before its start, or over 1096 days are asked for */
    RAFTTWINE_MANY_STRETCHES = 10,    /* unused: no call gives it, and no other refusal will have the number */
    RAFTTWINE_UNFIT_PACKAGING = 11,   /* packaging data in different units, or a sum of them below zero */
    RAFTTWINE_NO_TEXT = 12,           /* neither text book has the number */
    RAFTTWINE_BAD_ROW = 13,           /* a line of a price file makes no price record, or a price record no line; a place says which */
    RAFTTWINE_BAD_RELATION = 14,      /* a relation goes on, or ends, as none does; a place says where */
    RAFTTWINE_DEEP_RELATION = 15,     /* a parenthesis of a relation's condition is over sixteen deep; a place says which */
    RAFTTWINE_UNFIT_NAME = 16         /* a relation derives a name that no question can grant, or a 33rd; a place says which */
};

/* A refusal in English, for a message or a log. A later library may have further numbers. */
static inline const char *rafttwine_refusal_text(unsigned number) {
    switch (number) {
    case RAFTTWINE_DONE: return "done";
    case RAFTTWINE_BROKEN_BOOK: return "the price book, or one of the text books, is not laid out as such a book";
    case RAFTTWINE_BROKEN_QUESTION:
        return "a question or its property list is not laid out as such, its day is not in the calendar, there are too many questions, "
               "or it grants names beside a relation";
    case RAFTTWINE_NO_ARTICLE: return "the book does not have the article";
    case RAFTTWINE_NO_BASE_LINE: return "the article has no base price on that day, in that quantity";
    case RAFTTWINE_MIXED_CURRENCIES: return "a fixed amount is in another currency than the first base line";
    case RAFTTWINE_TOTAL_OUT_OF_RANGE: return "the total went beyond a thousand million cents";
    case RAFTTWINE_SHORT_OUTPUT: return "the lent output is too short";
    case RAFTTWINE_NO_PACKAGING: return "the book has no packaging data for the plain article";
    case RAFTTWINE_BAD_PERIOD: return "the period's end is no day, or before its start, or too late";
    case RAFTTWINE_MANY_STRETCHES: return "no call gives this number, which is kept unused";
    case RAFTTWINE_UNFIT_PACKAGING: return "packaging data are in different units, or sum up to less than zero";
    case RAFTTWINE_NO_TEXT: return "neither text book has the number";
    case RAFTTWINE_BAD_ROW: return "a line of the price file makes no price record, or a price record of the book makes no line";
    case RAFTTWINE_BAD_RELATION: return "the relation has something that no relation has at that place, or it ends too early";
    case RAFTTWINE_DEEP_RELATION: return "a condition of the relation has parentheses that are over sixteen deep";
    case RAFTTWINE_UNFIT_NAME: return "the relation derives a name that no question can grant, or over 32 names";
    default: return "unknown refusal";
    }
}

/* ---- The price of an article, line by line ---- */

/* A line is written in RAFTTWINE_LINE_BYTES, whatever the question's version, and a price has at most RAFTTWINE_MOST_LINES: for each of
 * three levels one without a condition, and one for each of 32 granted ones. RAFTTWINE_MOST_PRICE_BYTES are room for any price.
 *
 *   at 0    4 bytes   the line's text number, for rafttwine_text
 *   at 4    1 byte    its level: 'B' base price, 'X' surcharge, 'D' discount
 *   at 5    1 byte    the place of the granted condition that brought it, from 1; 0 for a line without a condition
 *   at 6    8 bytes   its amount in cents, signed (two's complement), with the factor in it
 *   at 14   2 bytes   that condition's factor in thousandths; RAFTTWINE_FACTOR_ONE for a line without a condition
 *
 * Lines come by level B, X, D; within a level first the one without a condition, then by place. */
#define RAFTTWINE_LINE_BYTES 16
#define RAFTTWINE_MOST_LINES 99
#define RAFTTWINE_MOST_PRICE_BYTES (RAFTTWINE_MOST_LINES * RAFTTWINE_LINE_BYTES)

/* Factors, in thousandths: once, and the greatest. */
#define RAFTTWINE_FACTOR_ONE 1000
#define RAFTTWINE_MOST_FACTOR 10000

typedef struct rafttwine_price_answer {
    int64_t unit;         /* the price of one piece in cents: the sum of the lines' amounts */
    int64_t total;        /* that times the quantity */
    uint64_t lines;       /* how many lines were written */
    uint32_t unused;      /* which granted conditions brought no line: the lowest bit for place 1; a repeated name is never among them */
    uint8_t unused_count; /* how many those are */
    uint8_t number;       /* 0, or the refusal: 1, 2, 3, 4, 5, 6, 7, the first that applies */
    uint8_t currency[3];  /* the currency of the first base line, three capitals */
} rafttwine_price_answer;

rafttwine_price_answer rafttwine_price(const uint8_t *book, size_t book_length, const uint8_t *question, size_t question_length,
                                       uint8_t *lines, size_t lines_length);

/* ---- The prices of a whole basket ---- */

/* At most RAFTTWINE_BASKET_QUESTIONS questions are lent one behind the other, with nothing between them and nothing behind the last:
 * each begins with its own length. Each gets the answer that rafttwine_price gives to it alone. First all answers are written in the
 * questions' order, RAFTTWINE_ANSWER_BYTES each:
 *
 *   1 byte    0, or why the question has no price: 3, 4, 5 or 6; then zeros follow
 *   8 bytes   the price of one piece in cents, signed (two's complement)
 *   8 bytes   that times the quantity, signed likewise
 *   3 bytes   the currency
 *   8 bytes   how many lines it has
 *   4 bytes   which granted conditions brought no line: the lowest bit for place 1
 *   1 byte    how many those are
 *
 * Behind the last answer come the lines of all questions, RAFTTWINE_LINE_BYTES each: those of the first question, then those of the
 * second, and so on. A question without a price has no lines, and the next one goes on.
 *
 * The refusal of the call itself is 1, 2 or 7, the first that applies: 2 also if one question of many is broken, or if there are too
 * many; 7 if there is not room for everything. No question at all is no fault, and nothing is written then.
 *
 * For each question room for RAFTTWINE_ANSWER_BYTES and RAFTTWINE_MOST_PRICE_BYTES is enough, whatever it asks; nobody needs more than
 * RAFTTWINE_MOST_BASKET_BYTES. */
#define RAFTTWINE_BASKET_QUESTIONS 200
#define RAFTTWINE_ANSWER_BYTES 33
#define RAFTTWINE_MOST_BASKET_BYTES (RAFTTWINE_BASKET_QUESTIONS * (RAFTTWINE_ANSWER_BYTES + RAFTTWINE_MOST_PRICE_BYTES))

typedef struct rafttwine_written {
    uint64_t length; /* how many bytes were written */
    uint8_t number;  /* 0, or the refusal */
} rafttwine_written;

rafttwine_written rafttwine_basket(const uint8_t *book, size_t book_length, const uint8_t *questions, size_t questions_length,
                                   uint8_t *out, size_t out_length);

/* ---- The text of a line ---- */

typedef struct rafttwine_text_answer {
    uint64_t place;  /* where the text starts in the book that has it, from 0; it is not copied */
    uint64_t length; /* its length in bytes, which may be 0 */
    uint8_t number;  /* 0, or the refusal: 1, 12, the first that applies */
    uint8_t book;    /* 1: the asked book has it; 2: the fallback has it; 0: refused */
} rafttwine_text_answer;

/* Both books have to be good, even if the asked one has the text. */
rafttwine_text_answer rafttwine_text(const uint8_t *asked, size_t asked_length, const uint8_t *fallback, size_t fallback_length,
                                     uint32_t number);

/* ---- The price calendar: from which day to which a price stays ---- */

/* The period starts on the question's day and ends on the day `end`, a number yyyymmdd; both belong to it. It is cut into the longest
 * stretches of days with one outcome, in the order of days. A stretch is written in 20 bytes:
 *
 *   4 bytes   its first day, yyyymmdd
 *   4 bytes   its last day
 *   1 byte    0, or why there is no price on these days: 4, 5 or 6; then zeros follow
 *   3 bytes   the currency
 *   8 bytes   the price of one piece in cents, signed (two's complement)
 *
 * The refusal of the call itself is 1, 2, 9, 3, 10 or 7, the first that applies. */
#define RAFTTWINE_STRETCH_BYTES 20
#define RAFTTWINE_MOST_STRETCHES 1096

/* It lies in memory as a rafttwine_written does, and is handed back the same way: a program that was compiled with that type for it
 * reads the same. */
typedef struct rafttwine_calendar_answer {
    uint64_t length; /* how much was written, in bytes; of a list, in records */
    uint8_t number;  /* 0, or the refusal */
} rafttwine_calendar_answer;

rafttwine_calendar_answer rafttwine_calendar(const uint8_t *book, size_t book_length, const uint8_t *question, size_t question_length,
                                             uint32_t end, uint8_t *out, size_t out_length);

/* The same stretches as a list of records, with the same refusals. The list's room is counted in records, and so is the length in the
 * answer; nobody needs room for more than RAFTTWINE_MOST_STRETCHES. */
typedef struct rafttwine_stretch {
    uint32_t first;      /* its first day, yyyymmdd */
    uint32_t last;       /* its last day */
    int64_t unit;        /* the price of one piece in cents; 0 if there is none */
    uint8_t refusal;     /* 0, or why there is no price on these days: 4, 5 or 6 */
    uint8_t currency[3]; /* three capitals; zeros if there is no price */
} rafttwine_stretch;

rafttwine_calendar_answer rafttwine_calendar_list(const uint8_t *book, size_t book_length, const uint8_t *question,
                                                  size_t question_length, uint32_t end, rafttwine_stretch *out, size_t out_count);

/* ---- The final article number: the base number with the properties' values ---- */

/* Writes Latin-1 bytes with no zero behind them. The refusal is 1, 2, 3 or 7, the first that applies. */
#define RAFTTWINE_MOST_NUMBER_BYTES 1256

rafttwine_written rafttwine_final_number(const uint8_t *book, size_t book_length, const uint8_t *question, size_t question_length,
                                         uint8_t *out, size_t out_length);

/* ---- Packaging data: the plain article's, with what the granted conditions add ---- */

typedef struct rafttwine_packaging_answer {
    int64_t gross;     /* tare plus net times items, in thousandths of the weight's unit, if all three are present; otherwise 0 */
    int64_t values[8]; /* width, height, depth, volume, tare weight, net weight in thousandths of their unit; items, packs as counts */
    uint8_t number;    /* 0, or the refusal: 1, 2, 3, 8, 11, the first that applies */
    uint8_t present;   /* which of the eight values are known, the lowest bit for width; one that is not known is 0 */
    uint8_t units[9];  /* three letters each for lengths, volume and weights, such as MMT, LTR, KGM; three zeros where none is known */
} rafttwine_packaging_answer;

rafttwine_packaging_answer rafttwine_packaging(const uint8_t *book, size_t book_length, const uint8_t *question,
                                               size_t question_length);

/* ---- The maker's own price file, ocd_price.csv: to price records, and back ---- */

/* A line of the file is a price record in thirteen fields, with a semicolon between two of them: article, condition, sort, level, rule,
 * name of the text, value, 1 if it is an amount and 0 if it is a percentage, currency, first day, last day, quantity, rounding. FORMAT.md
 * says which bytes each field may hold. Blank lines and lines that begin with # say nothing. Nothing bounds the length of a file, of a
 * line or of an output. */
typedef struct rafttwine_placed {
    uint64_t length; /* how many bytes were written */
    uint64_t place;  /* beside 13 to 16, which line or which byte it is about, from 1; otherwise 0 */
    uint8_t number;  /* 0, or the refusal */
} rafttwine_placed;

/* Reads a price file. Writes a price record for each of its lines that says something, in their order and one behind the other, as they
 * stand in a book; a book they become behind a head (the book's length in 4 bytes, and 1 for the version), with article records beside
 * them. A name of a text becomes a number: the first name in the file 1, the next other one 2, and so on; a blank one is 0. The quantity is
 * copied as it stands: in a book it is the most pieces that the record counts for, and 0 is for any number.
 *
 * The refusal is 13 or 7, the first that applies: 13 with the number of the first bad line. Every line counts, from 1, also those that
 * say nothing. Room for RAFTTWINE_MOST_RECORD_BYTES of the file's length is always enough. */
#define RAFTTWINE_MOST_RECORD_BYTES(file_length) (2 * (file_length))

rafttwine_placed rafttwine_read_prices(const uint8_t *file, size_t file_length, uint8_t *out, size_t out_length);

/* Writes a price file: a line for each price record of the book, in their order; its other records are left out. Reading the file gives
 * these records again, to the byte, if their text numbers but for 0 are 1, 2, 3 and on in the order in which they first appear; else it
 * gives them with the text numbers counted anew.
 *
 * The refusal is 1, 13 or 7, the first that applies: 13 for the first price record with a rounding number or with a date above 99999999,
 * which no line can say; the place is that of its first byte in the book, from 1. Room for RAFTTWINE_MOST_FILE_BYTES of the book's length
 * is always enough. */
#define RAFTTWINE_MOST_FILE_BYTES(book_length) (3 * (book_length))

rafttwine_placed rafttwine_write_prices(const uint8_t *book, size_t book_length, uint8_t *out, size_t out_length);

/* ---- Conditions that a maker's relation derives from the properties of the planned piece ---- */

/* A tool that cannot evaluate a maker's relations lends the relation, what the properties hold, and a question that grants no condition
 * itself. A relation is a text in Latin-1 of assignments such as
 *
 *   $VARCOND = 'OAK' IF TOP = 'oak' AND WIDTH >= 1600, $VARCOND = 'TRAY' IF NOT SPECIFIED SHELF
 *
 * each of which grants its name if its condition is plainly true; RELATIONS.md has the grammar, and what its conditions mean. The
 * properties are a list:
 *
 *   1 byte    how many properties there are, at most 64; then for each of them
 *                a name   what the relation calls it, of 0 to 255 bytes. Small letters count as capitals
 *                1 byte   0 if it has no value, 1 if that is a text, 2 if it is a number
 *                a name   of a text: its 0 to 255 bytes
 *                8 bytes  of a number: it, signed (two's complement)
 *             Of properties with one name the first counts
 *
 * Beside 14, 15 and 16 the place is that of a byte in the relation, from 1: of 14 the first byte that no relation has behind those before
 * it, or one past the end of a relation that is cut; of 15 the parenthesis that is too deep; of 16 the $ of the assignment. A line ends
 * with its line feed: the line of a place is one more than the line feeds before it, the column one more than the bytes behind the last
 * of these. */

/* Writes the question with the names that the relation derives, in order, where granted conditions stand; in version 2 with
 * RAFTTWINE_FACTOR_ONE behind each. All else of it stays, its version too. What is written is a question for any other call.
 *
 * The refusal is 2, 14 or 15, 16 or 7, the first that applies: 2 also for the properties, and for a question that grants names itself; of
 * 14 and 15 the one whose place is earlier. Room for RAFTTWINE_MOST_DERIVED_BYTES of the question's length is always enough. */
#define RAFTTWINE_MOST_DERIVED_BYTES(question_length) ((question_length) + 736)

rafttwine_placed rafttwine_derive(const uint8_t *question, size_t question_length, const uint8_t *properties, size_t properties_length,
                                  const uint8_t *relation, size_t relation_length, uint8_t *out, size_t out_length);

/* The price of that question, which is not written: what rafttwine_price answers to it, lines and all, with places of names in the order
 * in which they were derived. The refusal is 1, 2, 14 or 15, 16, 3, 4, 5, 6 or 7, the first that applies, each as above. */
typedef struct rafttwine_derived_answer {
    int64_t unit;         /* the price of one piece in cents: the sum of the lines' amounts */
    int64_t total;        /* that times the quantity */
    uint64_t lines;       /* how many lines were written */
    uint64_t place;       /* beside 14, 15 and 16, which byte of the relation it is about, from 1; otherwise 0 */
    uint32_t unused;      /* which derived names brought no line: the lowest bit for place 1; a repeated name is never among them */
    uint8_t unused_count; /* how many those are */
    uint8_t number;       /* 0, or the refusal */
    uint8_t currency[3];  /* the currency of the first base line, three capitals */
} rafttwine_derived_answer;

rafttwine_derived_answer rafttwine_price_derived(const uint8_t *book, size_t book_length, const uint8_t *question, size_t question_length,
                                                 const uint8_t *properties, size_t properties_length, const uint8_t *relation,
                                                 size_t relation_length, uint8_t *lines, size_t lines_length);

#ifdef __cplusplus
}
#endif

#endif

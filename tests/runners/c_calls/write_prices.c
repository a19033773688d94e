/* The call that writes a price file from a book: the file byte by byte, a book without price records, a record that no line can say by the
 * place of its first byte, what a refusal leaves, the output's length, and pointers that are null. */
#include "calls.h"

const long most_stack = RAFTTWINE_STACK_BYTES;

/* What stands before the last four fields of a price record of article and condition, those with their lengths in front. */
#define VALUED(sort, level, rule, text, fixed, value) sort, level, rule, FOUR(text), fixed, FOUR(value), 'E', 'U', 'R'

/* An article record, and price records: plain; with what has to be in quotes, and the greatest numbers; with a quote further in. */
static const uint8_t good[] = {
    0, 0, 0, 143, 1,
    0, 5, 1, 2, 'A', '1', 0,
    0, 34, 2, 2, 'A', '1', 0, VALUED('S', 'B', 1, 0, 1, 10000), FOUR(20240101), FOUR(20240630), FOUR(0), 0, 0,
    0, 36, 2, 2, '#', '1', 2, 'X', ';', VALUED('P', 'X', 2, 4294967295, 0, -5), FOUR(0), FOUR(99999999), FOUR(-1), 0, 0,
    0, 37, 2, 2, '"', '1', 3, '#', '"', 'X', VALUED('S', 'D', 1, 7, 1, -100000000), FOUR(1), FOUR(20241231), FOUR(1), 0, 0,
    0, 16, 3, 0, 1, 0, FOUR(1), FOUR(0), FOUR(0),
};

static const char file[] =
    "A1;;S;B;1;;100.00;1;EUR;20240101;20240630;0;\n"
    "\"#1\";\"X;\";P;X;2;4294967295;-0.05;0;EUR;;99999999;4294967295;\n"
    "\"\"\"1\";#\"X;S;D;1;7;-1000000.00;1;EUR;00000001;20241231;1;\n";

/* The first byte of the second and of the third price record, from 1; and from 0 where price records begin, and text numbers, days and a
 * rounding number of these two. */
enum { PRICES = 12, SECOND = 49, THIRD = 87 };
enum { SECOND_TEXT = 60, SECOND_LAST_DAY = 76, THIRD_TEXT = 99, THIRD_FIRST_DAY = 111, THIRD_ROUNDING = 123 };

static sample book;
static uint8_t out[RAFTTWINE_MOST_FILE_BYTES(sizeof good)];

static rafttwine_placed write_file(const sample *from, size_t room) {
    memset(out, UNTOUCHED, sizeof out);
    return rafttwine_write_prices(from->bytes, from->length, out, room);
}

static void done(rafttwine_placed answer, size_t length) {
    expect_placed(answer, RAFTTWINE_DONE, 0, length);
    expect_bytes("file", out, file, length);
    expect_all("behind the file", UNTOUCHED, out + length, sizeof out - length);
}

static void refused(rafttwine_placed answer, enum rafttwine_refusal number, long long place) {
    expect_placed(answer, number, place, 0);
    expect_all("output after a refusal", UNTOUCHED, out, sizeof out);
}

/* With the byte at that place, from 0, changed to another. */
static void unfit(size_t at, uint8_t byte, long long place) {
    sample changed = book;
    changed.bytes[at] = byte;
    refused(write_file(&changed, sizeof out), RAFTTWINE_BAD_ROW, place);
    refused(write_file(&changed, 0), RAFTTWINE_BAD_ROW, place);
}

/* Reading the file gives the price records again, with their text numbers counted anew: 4294967295 and 7 become 1 and 2. */
static void read_back(void) {
    static uint8_t lent[sizeof file - 1], records[sizeof good];
    for (size_t at = 0; at < sizeof lent; at++) lent[at] = (uint8_t)file[at];
    rafttwine_placed answer = rafttwine_read_prices(lent, sizeof lent, records, sizeof records);
    const uint8_t one[] = {FOUR(1)}, two[] = {FOUR(2)};
    expect("length of the records read", (long long)answer.length, sizeof good - PRICES - 18);
    expect_bytes("first record read", records, good + PRICES, SECOND - 1 - PRICES);
    expect_bytes("second text number read", records + SECOND_TEXT - PRICES, one, sizeof one);
    expect_bytes("third text number read", records + THIRD_TEXT - PRICES, two, sizeof two);
    for (size_t at = 0; at < 4; at++) {
        records[SECOND_TEXT - PRICES + at] = 255;
        records[THIRD_TEXT - PRICES + at] = good[THIRD_TEXT + at];
    }
    expect_bytes("records read, but for the text numbers", records, good + PRICES, (size_t)answer.length);
}

void prepare(void) {
    book.length = sizeof good;
    for (size_t at = 0; at < sizeof good; at++) book.bytes[at] = good[at];
}

void check_call(void) {
    const size_t length = sizeof file - 1;
    const uint8_t none[] = {0, 0, 0, 5, 1};
    done(write_file(&book, sizeof out), length);
    done(write_file(&book, length), length);
    refused(write_file(&book, length - 1), RAFTTWINE_SHORT_OUTPUT, 0);
    refused(rafttwine_write_prices(book.bytes, book.length, NULL, 0), RAFTTWINE_SHORT_OUTPUT, 0);
    unfit(THIRD_ROUNDING, 1, THIRD);
    unfit(THIRD_ROUNDING + 1, 1, THIRD);
    unfit(THIRD_FIRST_DAY, 6, THIRD);
    unfit(SECOND_LAST_DAY + 2, 0xE1, SECOND);
    read_back();
    memset(out, UNTOUCHED, sizeof out);
    done(rafttwine_write_prices(none, sizeof none, NULL, 0), 0);
    done(rafttwine_write_prices(none, sizeof none, out, sizeof out), 0);
    refused(rafttwine_write_prices(none, sizeof none - 1, out, sizeof out), RAFTTWINE_BROKEN_BOOK, 0);
    refused(rafttwine_write_prices(NULL, 0, NULL, 0), RAFTTWINE_BROKEN_BOOK, 0);
}

void one_call(void) {
    write_file(&book, sizeof out);
}

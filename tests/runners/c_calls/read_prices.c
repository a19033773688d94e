/* The call that reads a maker's price file: its records byte by byte, a file that says nothing, a bad line by its number, what a refusal
 * leaves, the output's length, and pointers that are null. */
#include "calls.h"

const long most_stack = RAFTTWINE_READER_STACK_BYTES;

/* A remark, a blank line, fields in quotes, blank dates, a last line without its end; and of the texts `oak` comes first. */
static const char file[] =
    "#ArticleID;Variantcondition;Type;Level;Rule;TextID;PriceValue;FixValue;Currency;DateFrom;DateTo;ScaleQuantity;RoundingID\n"
    " \t\n"
    "A1;;S;B;1;;100.00;1;EUR;20240101;20240630;0;\n"
    "\"A;\"\"1\" ;OAK;S;X;1;oak;12.5;0;EUR;;\"\"  ;4294967295;\n"
    "A1;;P;D;2;table;-.33000;0;EUR;00000000;99999999;07;\n"
    "#1\n"
    "A1;OAK;S;X;1;oak;-1000000;1;USD;20240101;20241231;1;\"\"";

static const uint8_t records[] = {
    0, 34, 2, 2, 'A', '1', 0, 'S', 'B', 1, FOUR(0), 1, FOUR(10000), 'E', 'U', 'R', FOUR(20240101), FOUR(20240630), FOUR(0), 0, 0,
    0, 39, 2, 4, 'A', ';', '"', '1', 3, 'O', 'A', 'K', 'S', 'X', 1, FOUR(1), 0, FOUR(1250), 'E', 'U', 'R', FOUR(0), FOUR(0), FOUR(-1), 0, 0,
    0, 34, 2, 2, 'A', '1', 0, 'P', 'D', 2, FOUR(2), 0, FOUR(-33), 'E', 'U', 'R', FOUR(0), FOUR(99999999), FOUR(7), 0, 0,
    0, 37, 2, 2, 'A', '1', 3, 'O', 'A', 'K', 'S', 'X', 1, FOUR(1), 1, FOUR(-100000000), 'U', 'S', 'D', FOUR(20240101), FOUR(20241231), FOUR(1),
    0, 0,
};

/* A line that is wrong in one field, for each of the thirteen; then fields too few and too many, quotes, and line ends of two bytes. */
static const char *const bad[] = {
    ";;S;B;1;;1;1;EUR;;;0;",
    "A1;\t;S;B;1;;1;1;EUR;;;0;",
    "A1;;s;B;1;;1;1;EUR;;;0;",
    "A1;;S;BX;1;;1;1;EUR;;;0;",
    "A1;;S;B;;;1;1;EUR;;;0;",
    "A1;;S;B;1;\177;1;1;EUR;;;0;",
    "A1;;S;B;1;;1.005;1;EUR;;;0;",
    "A1;;S;B;1;;1,50;1;EUR;;;0;",
    "A1;;S;B;1;;1000000.01;1;EUR;;;0;",
    "A1;;S;B;1;;1000.01;0;EUR;;;0;",
    "A1;;S;B;1;;1;2;EUR;;;0;",
    "A1;;S;B;1;;1;1;;;;0;",
    "A1;;S;B;1;;1;1;EUR; ;;0;",
    "A1;;S;B;1;;1;1;EUR;;2024063;0;",
    "A1;;S;B;1;;1;1;EUR;;;4294967296;",
    "A1;;S;B;1;;1;1;EUR;;;;",
    "A1;;S;B;1;;1;1;EUR;;;0;R1",
    "A1;;S;B;1;;1;1;EUR;;;0",
    "A1;;S;B;1;;1;1;EUR;;;0;;",
    "\"A1;;S;B;1;;1;1;EUR;;;0;",
    "\"A1\"x;;S;B;1;;1;1;EUR;;;0;",
    "A1;;S;B;1;;1;1;EUR;;;0;\r",
    " #",
    "\r",
};

static uint8_t out[RAFTTWINE_MOST_RECORD_BYTES(sizeof file)];

static rafttwine_placed read_file(const char *bytes, size_t length, size_t room) {
    memset(out, UNTOUCHED, sizeof out);
    return rafttwine_read_prices((const uint8_t *)bytes, length, out, room);
}

static void done(rafttwine_placed answer, size_t length) {
    expect_placed(answer, RAFTTWINE_DONE, 0, length);
    expect_bytes("records", out, records, length);
    expect_all("behind the records", UNTOUCHED, out + length, sizeof out - length);
}

static void refused(rafttwine_placed answer, enum rafttwine_refusal number, long long place) {
    expect_placed(answer, number, place, 0);
    expect_all("output after a refusal", UNTOUCHED, out, sizeof out);
}

/* The line as the third of four, of which the first is good and the last is bad too. */
static void bad_line(const char *line) {
    char lines[256];
    int length = snprintf(lines, sizeof lines, "A1;;S;B;1;;1;1;EUR;;;0;\n#\n%s\nx", line);
    refused(read_file(lines, (size_t)length, sizeof out), RAFTTWINE_BAD_ROW, 3);
    refused(read_file(lines, (size_t)length, 0), RAFTTWINE_BAD_ROW, 3);
}

void prepare(void) {
}

void check_call(void) {
    const size_t length = sizeof file - 1;
    done(read_file(file, length, sizeof out), sizeof records);
    done(read_file(file, length, sizeof records), sizeof records);
    refused(read_file(file, length, sizeof records - 1), RAFTTWINE_SHORT_OUTPUT, 0);
    done(read_file("\n \n#", 4, 0), 0);
    done(rafttwine_read_prices(NULL, 0, out, sizeof out), 0);
    done(rafttwine_read_prices(NULL, 0, NULL, 0), 0);
    for (size_t at = 0; at < sizeof bad / sizeof *bad; at++) bad_line(bad[at]);
    refused(rafttwine_read_prices((const uint8_t *)file, length, NULL, 0), RAFTTWINE_SHORT_OUTPUT, 0);
    refused(rafttwine_read_prices((const uint8_t *)"x", 1, NULL, 0), RAFTTWINE_BAD_ROW, 1);
}

void one_call(void) {
    read_file(file, sizeof file - 1, sizeof out);
}

/* The price call: lines byte by byte with their factors, what stands beside a refusal, the output's length, and pointers that are null. */
#include "calls.h"

const long most_stack = RAFTTWINE_STACK_BYTES;

static sample book, june_oak, june_factors;
static uint8_t lines[RAFTTWINE_MOST_PRICE_BYTES];

static const uint8_t june_oak_lines[] = {
    FOUR(100), 'B', 0, FOUR(0),  FOUR(10000), TWO(1000),
    FOUR(200), 'X', 1, FOUR(0),  FOUR(1250),  TWO(1000),
    FOUR(300), 'D', 0, FOUR(-1), FOUR(-375),  TWO(1000),
};

/* With 2.5 times oak: 3125, and 3.33 % of 13125 are 437.0625. */
static const uint8_t june_factors_lines[] = {
    FOUR(100), 'B', 0, FOUR(0),  FOUR(10000), TWO(1000),
    FOUR(200), 'X', 2, FOUR(0),  FOUR(3125),  TWO(2500),
    FOUR(300), 'D', 0, FOUR(-1), FOUR(-437),  TWO(1000),
};

static rafttwine_price_answer ask(const sample *question, size_t room) {
    memset(lines, UNTOUCHED, sizeof lines);
    return rafttwine_price(book.bytes, book.length, question->bytes, question->length, lines, room);
}

static void priced(size_t room) {
    rafttwine_price_answer answer = ask(&june_oak, room);
    expect("unit", answer.unit, 10875);
    expect("total", answer.total, 3 * 10875);
    expect("lines", (long long)answer.lines, 3);
    expect("unused", answer.unused, 2);
    expect("unused_count", answer.unused_count, 1);
    expect("number", answer.number, RAFTTWINE_DONE);
    expect_bytes("currency", answer.currency, "EUR", 3);
    expect_bytes("written lines", lines, june_oak_lines, sizeof june_oak_lines);
    expect_all("behind the lines", UNTOUCHED, lines + sizeof june_oak_lines, sizeof lines - sizeof june_oak_lines);
}

static void priced_with_factors(void) {
    rafttwine_price_answer answer = ask(&june_factors, sizeof june_factors_lines);
    expect("unit with factors", answer.unit, 12688);
    expect("lines with factors", (long long)answer.lines, 3);
    expect("unused with factors", answer.unused, 1);
    expect("number with factors", answer.number, RAFTTWINE_DONE);
    expect_bytes("written lines with factors", lines, june_factors_lines, sizeof june_factors_lines);
}

/* The last two bytes in front of the count of properties are the last factor. */
static void factor_at_its_bound(unsigned factor, enum rafttwine_refusal number) {
    sample question = june_factors;
    question.bytes[question.length - 3] = (uint8_t)(factor >> 8);
    question.bytes[question.length - 2] = (uint8_t)(factor & 255);
    expect("number for a factor at its bound", ask(&question, sizeof lines).number, number);
}

static void refused(rafttwine_price_answer answer, enum rafttwine_refusal number) {
    expect("refusal", answer.number, number);
    expect("unit of a refusal", answer.unit, 0);
    expect("total of a refusal", answer.total, 0);
    expect("lines of a refusal", (long long)answer.lines, 0);
    expect("unused of a refusal", answer.unused, 0);
    expect("unused_count of a refusal", answer.unused_count, 0);
    expect_all("currency of a refusal", 0, answer.currency, sizeof answer.currency);
    expect_all("lines after a refusal", UNTOUCHED, lines, sizeof lines);
}

static void asked_and_refused(const char *name, enum rafttwine_refusal number) {
    sample question = read_sample(name);
    refused(ask(&question, sizeof lines), number);
}

void prepare(void) {
    book = read_sample("sample.book");
    june_oak = read_sample("june_oak.question");
    june_factors = read_sample("june_factors.question");
}

void check_call(void) {
    priced(sizeof lines);
    priced(sizeof june_oak_lines);
    expect("bytes of a line", RAFTTWINE_LINE_BYTES, 16);
    expect("most bytes of a price", RAFTTWINE_MOST_PRICE_BYTES, 1584);
    priced_with_factors();
    factor_at_its_bound(RAFTTWINE_MOST_FACTOR, RAFTTWINE_DONE);
    factor_at_its_bound(RAFTTWINE_MOST_FACTOR + 1, RAFTTWINE_BROKEN_QUESTION);
    refused(ask(&june_oak, sizeof june_oak_lines - 1), RAFTTWINE_SHORT_OUTPUT);
    asked_and_refused("missing.question", RAFTTWINE_NO_ARTICLE);
    asked_and_refused("next_year.question", RAFTTWINE_NO_BASE_LINE);
    asked_and_refused("mixed.question", RAFTTWINE_MIXED_CURRENCIES);
    asked_and_refused("huge.question", RAFTTWINE_TOTAL_OUT_OF_RANGE);
    refused(rafttwine_price(NULL, 0, june_oak.bytes, june_oak.length, lines, sizeof lines), RAFTTWINE_BROKEN_BOOK);
    refused(rafttwine_price(book.bytes, book.length, NULL, 0, lines, sizeof lines), RAFTTWINE_BROKEN_QUESTION);
    refused(rafttwine_price(book.bytes, book.length, june_oak.bytes, june_oak.length, NULL, 0), RAFTTWINE_SHORT_OUTPUT);
    refused(rafttwine_price(NULL, 0, NULL, 0, NULL, 0), RAFTTWINE_BROKEN_BOOK);
}

void one_call(void) {
    ask(&june_oak, sizeof lines);
}

/* The basket call: answers and lines byte by byte, no questions and as many as there may be, what a refusal leaves, the output's
 * length, and pointers that are null. */
#include "calls.h"

const long most_stack = RAFTTWINE_BASKET_STACK_BYTES;

/* Questions one behind the other. */
typedef struct basket {
    size_t length;
    uint8_t bytes[32768];
} basket;

enum { MIXED = 7 };

static sample book, june_oak;
static basket mixed, full, over;
static uint8_t out[RAFTTWINE_MOST_BASKET_BYTES + 1];

/* To june_oak, an article that the book lacks, june_factors of version 2, june, and a day, two currencies and a total without a price. */
static const uint8_t written[] = {
    0, FOUR(0), FOUR(10875), FOUR(0), FOUR(32625), 'E', 'U', 'R', FOUR(0), FOUR(3), FOUR(2), 1,
    3, FOUR(0), FOUR(0),     FOUR(0), FOUR(0),     0,   0,   0,   FOUR(0), FOUR(0), FOUR(0), 0,
    0, FOUR(0), FOUR(12688), FOUR(0), FOUR(12688), 'E', 'U', 'R', FOUR(0), FOUR(3), FOUR(1), 1,
    0, FOUR(0), FOUR(9667),  FOUR(0), FOUR(9667),  'E', 'U', 'R', FOUR(0), FOUR(2), FOUR(0), 0,
    4, FOUR(0), FOUR(0),     FOUR(0), FOUR(0),     0,   0,   0,   FOUR(0), FOUR(0), FOUR(0), 0,
    5, FOUR(0), FOUR(0),     FOUR(0), FOUR(0),     0,   0,   0,   FOUR(0), FOUR(0), FOUR(0), 0,
    6, FOUR(0), FOUR(0),     FOUR(0), FOUR(0),     0,   0,   0,   FOUR(0), FOUR(0), FOUR(0), 0,
    FOUR(100), 'B', 0, FOUR(0),  FOUR(10000), TWO(1000),
    FOUR(200), 'X', 1, FOUR(0),  FOUR(1250),  TWO(1000),
    FOUR(300), 'D', 0, FOUR(-1), FOUR(-375),  TWO(1000),
    FOUR(100), 'B', 0, FOUR(0),  FOUR(10000), TWO(1000),
    FOUR(200), 'X', 2, FOUR(0),  FOUR(3125),  TWO(2500),
    FOUR(300), 'D', 0, FOUR(-1), FOUR(-437),  TWO(1000),
    FOUR(100), 'B', 0, FOUR(0),  FOUR(10000), TWO(1000),
    FOUR(300), 'D', 0, FOUR(-1), FOUR(-333),  TWO(1000),
};

static void add(basket *to, const sample *question) {
    for (size_t at = 0; at < question->length; at++) to->bytes[to->length++] = question->bytes[at];
}

static void add_named(basket *to, const char *name) {
    sample question = read_sample(name);
    add(to, &question);
}

static rafttwine_written ask(const basket *questions, size_t room) {
    memset(out, UNTOUCHED, sizeof out);
    return rafttwine_basket(book.bytes, book.length, questions->bytes, questions->length, out, room);
}

static void priced(size_t room) {
    rafttwine_written answer = ask(&mixed, room);
    expect("number", answer.number, RAFTTWINE_DONE);
    expect("length", (long long)answer.length, sizeof written);
    expect_bytes("answers and lines", out, written, sizeof written);
    expect_all("behind the lines", UNTOUCHED, out + sizeof written, sizeof out - sizeof written);
}

/* One question as often as there may be questions. */
static void as_many_as_there_may_be(void) {
    const size_t lines = 3 * RAFTTWINE_LINE_BYTES, answers = RAFTTWINE_BASKET_QUESTIONS * RAFTTWINE_ANSWER_BYTES;
    rafttwine_written answer = ask(&full, RAFTTWINE_MOST_BASKET_BYTES);
    expect("number of a full basket", answer.number, RAFTTWINE_DONE);
    expect("length of a full basket", (long long)answer.length, (long long)(answers + RAFTTWINE_BASKET_QUESTIONS * lines));
    for (size_t at = 0; at < RAFTTWINE_BASKET_QUESTIONS; at++) {
        expect_bytes("answer of a full basket", out + at * RAFTTWINE_ANSWER_BYTES, written, RAFTTWINE_ANSWER_BYTES);
        expect_bytes("lines of a full basket", out + answers + at * lines, written + MIXED * RAFTTWINE_ANSWER_BYTES, lines);
    }
    expect_all("behind a full basket", UNTOUCHED, out + answer.length, sizeof out - answer.length);
}

static void empty(rafttwine_written answer) {
    expect("number of no questions", answer.number, RAFTTWINE_DONE);
    expect("length of no questions", (long long)answer.length, 0);
    expect_all("output of no questions", UNTOUCHED, out, sizeof out);
}

static void refused(rafttwine_written answer, enum rafttwine_refusal number) {
    expect("refusal", answer.number, number);
    expect("length of a refusal", (long long)answer.length, 0);
    expect_all("output after a refusal", UNTOUCHED, out, sizeof out);
}

void prepare(void) {
    book = read_sample("sample.book");
    june_oak = read_sample("june_oak.question");
    add(&mixed, &june_oak);
    add_named(&mixed, "missing.question");
    add_named(&mixed, "june_factors.question");
    add_named(&mixed, "june.question");
    add_named(&mixed, "next_year.question");
    add_named(&mixed, "mixed.question");
    add_named(&mixed, "huge.question");
    for (int at = 0; at < RAFTTWINE_BASKET_QUESTIONS; at++) add(&full, &june_oak);
    over = full;
    add(&over, &june_oak);
}

void check_call(void) {
    expect("bytes of an answer", RAFTTWINE_ANSWER_BYTES, 33);
    priced(RAFTTWINE_MOST_BASKET_BYTES);
    priced(sizeof written);
    as_many_as_there_may_be();
    refused(ask(&mixed, sizeof written - 1), RAFTTWINE_SHORT_OUTPUT);
    refused(ask(&over, sizeof out), RAFTTWINE_BROKEN_QUESTION);
    basket cut = mixed;
    cut.length--;
    refused(ask(&cut, sizeof out), RAFTTWINE_BROKEN_QUESTION);
    empty(rafttwine_basket(book.bytes, book.length, NULL, 0, out, sizeof out));
    empty(rafttwine_basket(book.bytes, book.length, NULL, 0, NULL, 0));
    refused(rafttwine_basket(NULL, 0, mixed.bytes, mixed.length, out, sizeof out), RAFTTWINE_BROKEN_BOOK);
    refused(rafttwine_basket(book.bytes, book.length, mixed.bytes, mixed.length, NULL, 0), RAFTTWINE_SHORT_OUTPUT);
    refused(rafttwine_basket(NULL, 0, NULL, 0, NULL, 0), RAFTTWINE_BROKEN_BOOK);
}

void one_call(void) {
    ask(&full, sizeof out);
}

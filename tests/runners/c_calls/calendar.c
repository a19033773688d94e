/* The calendar call that writes bytes: the calendar worked by hand, the output's length, refusals, and pointers that are null. */
#include "calls.h"

const long most_stack = RAFTTWINE_CALENDAR_STACK_BYTES;

static sample book, june_oak, factors;
static uint8_t out[RAFTTWINE_MOST_STRETCHES * RAFTTWINE_STRETCH_BYTES];

static const uint32_t end = 20250102;
static const uint8_t stretches[] = {
    FOUR(20240629), FOUR(20240630), 0, 'E', 'U', 'R', FOUR(0), FOUR(10875),
    FOUR(20240701), FOUR(20241231), 0, 'E', 'U', 'R', FOUR(0), FOUR(11420),
    FOUR(20250101), FOUR(20250102), 4, 0,   0,   0,   FOUR(0), FOUR(0),
};

/* With 2.5 times oak: in July 3281.25 on top of 10500, and 3.33 % of 13781 are 458.9073. */
static const uint8_t stretches_with_factors[] = {
    FOUR(20240629), FOUR(20240630), 0, 'E', 'U', 'R', FOUR(0), FOUR(12688),
    FOUR(20240701), FOUR(20241231), 0, 'E', 'U', 'R', FOUR(0), FOUR(13322),
    FOUR(20250101), FOUR(20250102), 4, 0,   0,   0,   FOUR(0), FOUR(0),
};

static rafttwine_calendar_answer ask(const sample *question, uint32_t last, size_t room) {
    memset(out, UNTOUCHED, sizeof out);
    return rafttwine_calendar(book.bytes, book.length, question->bytes, question->length, last, out, room);
}

static void listed(const sample *question, const uint8_t *due, size_t room) {
    rafttwine_calendar_answer answer = ask(question, end, room);
    expect("length", (long long)answer.length, sizeof stretches);
    expect("number", answer.number, RAFTTWINE_DONE);
    expect_bytes("stretches", out, due, sizeof stretches);
    expect_all("behind the stretches", UNTOUCHED, out + sizeof stretches, sizeof out - sizeof stretches);
}

static void refused(rafttwine_calendar_answer answer, enum rafttwine_refusal number) {
    expect("refusal", answer.number, number);
    expect("length of a refusal", (long long)answer.length, 0);
    expect_all("output after a refusal", UNTOUCHED, out, sizeof out);
}

void prepare(void) {
    book = read_sample("sample.book");
    june_oak = read_sample("calendar.question");
    factors = read_sample("calendar_factors.question");
}

void check_call(void) {
    sample missing = read_sample("missing.question");
    listed(&june_oak, stretches, sizeof out);
    listed(&june_oak, stretches, sizeof stretches);
    listed(&factors, stretches_with_factors, sizeof out);
    refused(ask(&june_oak, end, sizeof stretches - 1), RAFTTWINE_SHORT_OUTPUT);
    refused(ask(&june_oak, 20240628, sizeof out), RAFTTWINE_BAD_PERIOD);
    refused(ask(&june_oak, 20240931, sizeof out), RAFTTWINE_BAD_PERIOD);
    refused(ask(&missing, end, sizeof out), RAFTTWINE_NO_ARTICLE);
    refused(rafttwine_calendar(NULL, 0, june_oak.bytes, june_oak.length, end, out, sizeof out), RAFTTWINE_BROKEN_BOOK);
    refused(rafttwine_calendar(book.bytes, book.length, NULL, 0, end, out, sizeof out), RAFTTWINE_BROKEN_QUESTION);
    refused(rafttwine_calendar(book.bytes, book.length, june_oak.bytes, june_oak.length, end, NULL, 0), RAFTTWINE_SHORT_OUTPUT);
}

void one_call(void) {
    ask(&june_oak, end, sizeof out);
}

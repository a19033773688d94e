/* The calendar call that fills a list: the calendar worked by hand, the list's length, refusals, and pointers that are null. */
#include "calls.h"

const long most_stack = RAFTTWINE_CALENDAR_STACK_BYTES;

static sample book, june_oak;
static rafttwine_stretch out[RAFTTWINE_MOST_STRETCHES];

static const uint32_t end = 20250102;
static const rafttwine_stretch stretches[] = {
    {20240629, 20240630, 10875, RAFTTWINE_DONE, {'E', 'U', 'R'}},
    {20240701, 20241231, 11420, RAFTTWINE_DONE, {'E', 'U', 'R'}},
    {20250101, 20250102, 0, RAFTTWINE_NO_BASE_LINE, {0, 0, 0}},
};

static rafttwine_calendar_answer ask(const sample *question, uint32_t last, size_t room) {
    memset(out, UNTOUCHED, sizeof out);
    return rafttwine_calendar_list(book.bytes, book.length, question->bytes, question->length, last, out, room);
}

static void same_stretch(const rafttwine_stretch *found, const rafttwine_stretch *expected) {
    expect("first", found->first, expected->first);
    expect("last", found->last, expected->last);
    expect("unit", found->unit, expected->unit);
    expect("refusal of a stretch", found->refusal, expected->refusal);
    expect_bytes("currency", found->currency, expected->currency, sizeof found->currency);
}

static void listed(size_t room) {
    rafttwine_calendar_answer answer = ask(&june_oak, end, room);
    expect("length", (long long)answer.length, 3);
    expect("number", answer.number, RAFTTWINE_DONE);
    for (int at = 0; at < 3; at++) same_stretch(&out[at], &stretches[at]);
    expect_all("behind the stretches", UNTOUCHED, out + 3, sizeof out - sizeof stretches);
}

static void refused(rafttwine_calendar_answer answer, enum rafttwine_refusal number) {
    expect("refusal", answer.number, number);
    expect("length of a refusal", (long long)answer.length, 0);
    expect_all("list after a refusal", UNTOUCHED, out, sizeof out);
}

void prepare(void) {
    book = read_sample("sample.book");
    june_oak = read_sample("calendar.question");
}

void check_call(void) {
    sample missing = read_sample("missing.question");
    listed(RAFTTWINE_MOST_STRETCHES);
    listed(3);
    refused(ask(&june_oak, end, 2), RAFTTWINE_SHORT_OUTPUT);
    refused(ask(&june_oak, 20240628, RAFTTWINE_MOST_STRETCHES), RAFTTWINE_BAD_PERIOD);
    refused(ask(&missing, end, RAFTTWINE_MOST_STRETCHES), RAFTTWINE_NO_ARTICLE);
    refused(rafttwine_calendar_list(NULL, 0, june_oak.bytes, june_oak.length, end, out, 3), RAFTTWINE_BROKEN_BOOK);
    refused(rafttwine_calendar_list(book.bytes, book.length, NULL, 0, end, out, 3), RAFTTWINE_BROKEN_QUESTION);
    refused(rafttwine_calendar_list(book.bytes, book.length, june_oak.bytes, june_oak.length, end, NULL, 0), RAFTTWINE_SHORT_OUTPUT);
}

void one_call(void) {
    ask(&june_oak, end, RAFTTWINE_MOST_STRETCHES);
}

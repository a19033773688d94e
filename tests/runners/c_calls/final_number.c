/* The call for the final article number: the two worked by hand, the output's length, refusals, and pointers that are null. */
#include "calls.h"

const long most_stack = RAFTTWINE_STACK_BYTES;

static sample book, padded;
static uint8_t out[RAFTTWINE_MOST_NUMBER_BYTES];

static rafttwine_written ask(const sample *question, size_t room) {
    memset(out, UNTOUCHED, sizeof out);
    return rafttwine_final_number(book.bytes, book.length, question->bytes, question->length, out, room);
}

static void numbered(const sample *question, const char *number, size_t length, size_t room) {
    rafttwine_written answer = ask(question, room);
    expect("number", answer.number, RAFTTWINE_DONE);
    expect("length", (long long)answer.length, (long long)length);
    expect_bytes("final number", out, number, length);
    expect_all("behind the final number", UNTOUCHED, out + length, sizeof out - length);
}

static void refused(rafttwine_written answer, enum rafttwine_refusal number) {
    expect("refusal", answer.number, number);
    expect("length of a refusal", (long long)answer.length, 0);
    expect_all("output after a refusal", UNTOUCHED, out, sizeof out);
}

void prepare(void) {
    book = read_sample("sample.book");
    padded = read_sample("padded.question");
}

void check_call(void) {
    sample trimmed = read_sample("trimmed.question");
    sample missing = read_sample("missing.question");
    numbered(&padded, "T100 OAK _--_XXX", 16, sizeof out);
    numbered(&padded, "T100 OAK _--_XXX", 16, 16);
    numbered(&trimmed, "T200 OAK_--_XXX", 15, sizeof out);
    refused(ask(&padded, 15), RAFTTWINE_SHORT_OUTPUT);
    refused(ask(&missing, sizeof out), RAFTTWINE_NO_ARTICLE);
    refused(rafttwine_final_number(NULL, 0, padded.bytes, padded.length, out, sizeof out), RAFTTWINE_BROKEN_BOOK);
    refused(rafttwine_final_number(book.bytes, book.length, NULL, 0, out, sizeof out), RAFTTWINE_BROKEN_QUESTION);
    refused(rafttwine_final_number(book.bytes, book.length, padded.bytes, padded.length, NULL, 0), RAFTTWINE_SHORT_OUTPUT);
}

void one_call(void) {
    ask(&padded, sizeof out);
}

/* The packaging call: the weights worked by hand, which no factor changes, values that are not known, refusals, and pointers that are
 * null. */
#include "calls.h"

const long most_stack = RAFTTWINE_STACK_BYTES;

static sample book, carton_oak;

static rafttwine_packaging_answer ask(const sample *question) {
    return rafttwine_packaging(book.bytes, book.length, question->bytes, question->length);
}

static void packed(const sample *question, int64_t gross, const int64_t *values, uint8_t present, const char *units) {
    rafttwine_packaging_answer answer = ask(question);
    expect("gross", answer.gross, gross);
    for (int at = 0; at < 8; at++) expect("value", answer.values[at], values[at]);
    expect("number", answer.number, RAFTTWINE_DONE);
    expect("present", answer.present, present);
    expect_bytes("units", answer.units, units, sizeof answer.units);
}

static void refused(rafttwine_packaging_answer answer, enum rafttwine_refusal number) {
    expect("refusal", answer.number, number);
    expect("gross of a refusal", answer.gross, 0);
    expect_all("values of a refusal", 0, answer.values, sizeof answer.values);
    expect("present of a refusal", answer.present, 0);
    expect_all("units of a refusal", 0, answer.units, sizeof answer.units);
}

static void asked_and_refused(const char *name, enum rafttwine_refusal number) {
    sample question = read_sample(name);
    refused(ask(&question), number);
}

void prepare(void) {
    book = read_sample("sample.book");
    carton_oak = read_sample("carton_oak.question");
}

void check_call(void) {
    static const int64_t plain[8] = {800, 720, 45, 26, 2000, 15000, 2, 1};
    static const int64_t oak[8] = {800, 720, 45, 26, 2000, 18000, 2, 1};
    static const int64_t wide[8] = {2, 0, 0, 0, 0, 0, 0, 0};
    sample carton = read_sample("carton.question");
    sample carton_wide = read_sample("carton_wide.question");
    sample carton_factor = read_sample("carton_factor.question");
    packed(&carton, 32000, plain, 255, "MMTLTRKGM");
    packed(&carton_oak, 38000, oak, 255, "MMTLTRKGM");
    packed(&carton_factor, 38000, oak, 255, "MMTLTRKGM");
    packed(&carton_wide, 0, wide, 1, "CMT\0\0\0\0\0\0");
    asked_and_refused("missing.question", RAFTTWINE_NO_ARTICLE);
    asked_and_refused("june.question", RAFTTWINE_NO_PACKAGING);
    asked_and_refused("carton_pounds.question", RAFTTWINE_UNFIT_PACKAGING);
    asked_and_refused("carton_below.question", RAFTTWINE_UNFIT_PACKAGING);
    refused(rafttwine_packaging(NULL, 0, carton.bytes, carton.length), RAFTTWINE_BROKEN_BOOK);
    refused(rafttwine_packaging(book.bytes, book.length, NULL, 0), RAFTTWINE_BROKEN_QUESTION);
}

void one_call(void) {
    ask(&carton_oak);
}

/* The text call: a text of either book, one that is empty, one that is missing, broken books, and pointers that are null. */
#include "calls.h"

const long most_stack = RAFTTWINE_STACK_BYTES;

static sample asked, fallback;

static void answered(rafttwine_text_answer answer, enum rafttwine_refusal number, uint8_t book, uint64_t place, uint64_t length) {
    expect("number", answer.number, number);
    expect("book", answer.book, book);
    expect("place", (long long)answer.place, (long long)place);
    expect("length", (long long)answer.length, (long long)length);
}

static rafttwine_text_answer ask(uint32_t number) {
    return rafttwine_text(asked.bytes, asked.length, fallback.bytes, fallback.length, number);
}

void prepare(void) {
    asked = read_sample("asked.texts");
    fallback = read_sample("fallback.texts");
}

void check_call(void) {
    /* A text book has 5 bytes in front, and each text 6. */
    answered(ask(100), RAFTTWINE_DONE, 1, 5 + 6, 5);
    expect_bytes("table", asked.bytes + 5 + 6, "table", 5);
    answered(ask(200), RAFTTWINE_DONE, 1, 5 + 6 + 5 + 6, 0);
    answered(ask(300), RAFTTWINE_DONE, 2, 5 + 6 + 5 + 6, 8);
    expect_bytes("Nachlass", fallback.bytes + 5 + 6 + 5 + 6, "Nachlass", 8);
    answered(ask(400), RAFTTWINE_NO_TEXT, 0, 0, 0);
    answered(rafttwine_text(asked.bytes, asked.length, asked.bytes, asked.length, 300), RAFTTWINE_NO_TEXT, 0, 0, 0);
    answered(rafttwine_text(asked.bytes, asked.length, fallback.bytes, fallback.length - 1, 100), RAFTTWINE_BROKEN_BOOK, 0, 0, 0);
    answered(rafttwine_text(NULL, 0, fallback.bytes, fallback.length, 100), RAFTTWINE_BROKEN_BOOK, 0, 0, 0);
    answered(rafttwine_text(asked.bytes, asked.length, NULL, 0, 100), RAFTTWINE_BROKEN_BOOK, 0, 0, 0);
}

void one_call(void) {
    ask(300);
}

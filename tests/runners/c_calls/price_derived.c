/* The price call with derived conditions: lines byte by byte, what stands beside a refusal and its place, the order of refusals, the output's
 * length, and pointers that are null. */
#include "calls.h"

const long most_stack = RAFTTWINE_STACK_BYTES;

static sample book, june, chosen, relation;
static uint8_t lines[RAFTTWINE_MOST_PRICE_BYTES];

static const uint8_t june_lines[] = {
    FOUR(100), 'B', 0, FOUR(0),  FOUR(10000), TWO(1000),
    FOUR(200), 'X', 1, FOUR(0),  FOUR(1250),  TWO(1000),
    FOUR(300), 'D', 0, FOUR(-1), FOUR(-375),  TWO(1000),
};

static rafttwine_derived_answer ask(const sample *question, const uint8_t *text, size_t length, size_t room) {
    memset(lines, UNTOUCHED, sizeof lines);
    return rafttwine_price_derived(book.bytes, book.length, question->bytes, question->length, chosen.bytes, chosen.length, text, length,
                                   lines, room);
}

static void priced(const char *name, size_t room) {
    sample question = read_sample(name);
    rafttwine_derived_answer answer = ask(&question, relation.bytes, relation.length, room);
    expect("unit", answer.unit, 10875);
    expect("total", answer.total, 10875);
    expect("lines", (long long)answer.lines, 3);
    expect("place", (long long)answer.place, 0);
    expect("unused", answer.unused, 2);
    expect("unused_count", answer.unused_count, 1);
    expect("number", answer.number, RAFTTWINE_DONE);
    expect_bytes("currency", answer.currency, "EUR", 3);
    expect_bytes("written lines", lines, june_lines, sizeof june_lines);
    expect_all("behind the lines", UNTOUCHED, lines + sizeof june_lines, sizeof lines - sizeof june_lines);
}

static void refused(rafttwine_derived_answer answer, enum rafttwine_refusal number, long long place) {
    expect("refusal", answer.number, number);
    expect("place of a refusal", (long long)answer.place, place);
    expect("unit of a refusal", answer.unit, 0);
    expect("total of a refusal", answer.total, 0);
    expect("lines of a refusal", (long long)answer.lines, 0);
    expect("unused of a refusal", answer.unused, 0);
    expect("unused_count of a refusal", answer.unused_count, 0);
    expect_all("currency of a refusal", 0, answer.currency, sizeof answer.currency);
    expect_all("lines after a refusal", UNTOUCHED, lines, sizeof lines);
}

static void asked_and_refused(const char *name, const char *text, enum rafttwine_refusal number, long long place) {
    sample question = read_sample(name);
    size_t length = 0;
    while (text[length] != 0) length++;
    refused(ask(&question, (const uint8_t *)text, length, 0), number, place);
}

/* Each with what would be refused later too. */
static void refused_in_order(void) {
    asked_and_refused("june_oak.question", "?", RAFTTWINE_BROKEN_QUESTION, 0);
    asked_and_refused("missing.question", "$VARCOND = '' ?", RAFTTWINE_BAD_RELATION, 15);
    asked_and_refused("missing.question", "$VARCOND = '' IF (((((((((((((((((", RAFTTWINE_DEEP_RELATION, 34);
    asked_and_refused("missing.question", "$VARCOND = ''", RAFTTWINE_UNFIT_NAME, 1);
    asked_and_refused("missing.question", "$VARCOND = 'A'", RAFTTWINE_NO_ARTICLE, 0);
    asked_and_refused("next_year.question", "$VARCOND = 'A'", RAFTTWINE_NO_BASE_LINE, 0);
    asked_and_refused("mixed.question", "$VARCOND = 'A'", RAFTTWINE_MIXED_CURRENCIES, 0);
    asked_and_refused("huge.question", "$VARCOND = 'A'", RAFTTWINE_TOTAL_OUT_OF_RANGE, 0);
    asked_and_refused("june.question", "$VARCOND = 'A'", RAFTTWINE_SHORT_OUTPUT, 0);
}

static void null_pointers(void) {
    const sample *asked = &june;
    refused(rafttwine_price_derived(NULL, 0, NULL, 0, NULL, 0, NULL, 0, NULL, 0), RAFTTWINE_BROKEN_BOOK, 0);
    refused(rafttwine_price_derived(book.bytes, book.length, NULL, 0, NULL, 0, NULL, 0, NULL, 0), RAFTTWINE_BROKEN_QUESTION, 0);
    refused(rafttwine_price_derived(book.bytes, book.length, asked->bytes, asked->length, NULL, 0, NULL, 0, NULL, 0),
            RAFTTWINE_BROKEN_QUESTION, 0);
    refused(rafttwine_price_derived(book.bytes, book.length, asked->bytes, asked->length, chosen.bytes, chosen.length, NULL, 0, NULL, 0),
            RAFTTWINE_BAD_RELATION, 1);
}

void prepare(void) {
    book = read_sample("sample.book");
    june = read_sample("june.question");
    chosen = read_sample("chosen.properties");
    relation = read_sample("sample.relation");
    make_deep_relation();
}

void check_call(void) {
    priced("june.question", sizeof lines);
    priced("june.question", sizeof june_lines);
    priced("june_version_2.question", sizeof lines);
    refused(ask(&june, relation.bytes, relation.length, sizeof june_lines - 1), RAFTTWINE_SHORT_OUTPUT, 0);
    refused_in_order();
    null_pointers();
    rafttwine_derived_answer deep = ask(&june, deep_relation, deep_relation_length, sizeof lines);
    expect("number for a deep relation", deep.number, RAFTTWINE_DONE);
    expect("unused for a deep relation", deep.unused, 1);
}

void one_call(void) {
    ask(&june, deep_relation, deep_relation_length, sizeof lines);
}

/* The call that derives conditions by a relation: the question byte by byte in both versions, what is refused with 2, a wrong relation by the
 * place of its byte, what a refusal leaves, the output's length, and pointers that are null. */
#include "calls.h"

const long most_stack = RAFTTWINE_STACK_BYTES;

static sample june, june_version_2, june_oak, chosen, relation;
static uint8_t out[RAFTTWINE_MOST_DERIVED_BYTES(sizeof(june.bytes))];

/* The front of both questions, behind length and version. */
#define ASKED 2, 'A', '1', 'S', 0, 0, 0, FOUR(20240630), FOUR(1)

static const uint8_t derived[] = {FOUR(30), 1, ASKED, 2, 3, 'o', 'a', 'k', 3, 'a', 's', 'h', 0};
static const uint8_t derived_version_2[] = {FOUR(34), 2, ASKED, 2, 3, 'o', 'a', 'k', TWO(1000), 3, 'a', 's', 'h', TWO(1000), 0};

static rafttwine_placed derive(const sample *question, const uint8_t *text, size_t length, size_t room) {
    memset(out, UNTOUCHED, sizeof out);
    return rafttwine_derive(question->bytes, question->length, chosen.bytes, chosen.length, text, length, out, room);
}

static void done(rafttwine_placed answer, const uint8_t *question, size_t length) {
    expect_placed(answer, RAFTTWINE_DONE, 0, length);
    expect_bytes("question", out, question, length);
    expect_all("behind the question", UNTOUCHED, out + length, sizeof out - length);
}

static void refused(rafttwine_placed answer, enum rafttwine_refusal number, long long place) {
    expect_placed(answer, number, place, 0);
    expect_all("output after a refusal", UNTOUCHED, out, sizeof out);
}

static void wrong_relation(const char *text, enum rafttwine_refusal number, long long place) {
    size_t length = 0;
    while (text[length] != 0) length++;
    refused(derive(&june, (const uint8_t *)text, length, sizeof out), number, place);
    refused(derive(&june, (const uint8_t *)text, length, 0), number, place);
}

static void wrong_relations(void) {
    wrong_relation("", RAFTTWINE_BAD_RELATION, 1);
    wrong_relation("$VARCOND = 'A',\n", RAFTTWINE_BAD_RELATION, 17);
    wrong_relation("$VARCOND = 'A' IF AND B = 1", RAFTTWINE_BAD_RELATION, 22);
    wrong_relation("$VARCOND = 'A' IF TOP 'oak'", RAFTTWINE_BAD_RELATION, 23);
    wrong_relation("$VARCOND = 'A' IF ((((((((((((((((TOP = 'oak'", RAFTTWINE_BAD_RELATION, 46);
    wrong_relation("$VARCOND = 'A' IF (((((((((((((((((TOP = 'oak'", RAFTTWINE_DEEP_RELATION, 35);
    wrong_relation("$VARCOND = 'A', $VARCOND = ''", RAFTTWINE_UNFIT_NAME, 17);
    wrong_relation("\n$VARCOND = 'a name of 21 letters!'", RAFTTWINE_UNFIT_NAME, 2);
}

/* What is no question, or no list of properties, or grants a name. */
static void broken(void) {
    sample cut = chosen;
    cut.length--;
    refused(derive(&june_oak, relation.bytes, relation.length, sizeof out), RAFTTWINE_BROKEN_QUESTION, 0);
    memset(out, UNTOUCHED, sizeof out);
    refused(rafttwine_derive(june.bytes, june.length, cut.bytes, cut.length, NULL, 0, out, sizeof out), RAFTTWINE_BROKEN_QUESTION, 0);
    refused(rafttwine_derive(june.bytes, june.length, NULL, 0, NULL, 0, out, sizeof out), RAFTTWINE_BROKEN_QUESTION, 0);
    refused(rafttwine_derive(NULL, 0, chosen.bytes, chosen.length, relation.bytes, relation.length, out, sizeof out),
            RAFTTWINE_BROKEN_QUESTION, 0);
    refused(rafttwine_derive(NULL, 0, NULL, 0, NULL, 0, NULL, 0), RAFTTWINE_BROKEN_QUESTION, 0);
}

void prepare(void) {
    june = read_sample("june.question");
    june_version_2 = read_sample("june_version_2.question");
    june_oak = read_sample("june_oak.question");
    chosen = read_sample("chosen.properties");
    relation = read_sample("sample.relation");
    make_deep_relation();
}

void check_call(void) {
    done(derive(&june, relation.bytes, relation.length, sizeof out), derived, sizeof derived);
    done(derive(&june, relation.bytes, relation.length, sizeof derived), derived, sizeof derived);
    done(derive(&june_version_2, relation.bytes, relation.length, sizeof out), derived_version_2, sizeof derived_version_2);
    refused(derive(&june, relation.bytes, relation.length, sizeof derived - 1), RAFTTWINE_SHORT_OUTPUT, 0);
    memset(out, UNTOUCHED, sizeof out);
    refused(rafttwine_derive(june.bytes, june.length, chosen.bytes, chosen.length, NULL, 0, out, sizeof out), RAFTTWINE_BAD_RELATION, 1);
    wrong_relations();
    broken();
    expect("number for a deep relation", derive(&june, deep_relation, deep_relation_length, sizeof out).number, RAFTTWINE_DONE);
    expect("names of a deep relation", out[20], 1);
}

void one_call(void) {
    derive(&june, deep_relation, deep_relation_length, sizeof out);
}

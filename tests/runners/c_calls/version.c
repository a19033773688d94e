/* The version call: the library is of the header's version; and the header's number and text are the same version. */
#include "calls.h"

const long most_stack = RAFTTWINE_STACK_BYTES;

void prepare(void) {
}

void check_call(void) {
    uint32_t version = rafttwine_version();
    char text[32];
    expect("version", version, RAFTTWINE_VERSION_NUMBER);
    int length = snprintf(text, sizeof text, "%d.%d.%d", (int)(version / 10000), (int)(version / 100 % 100), (int)(version % 100));
    expect("length of the version's text", length, sizeof RAFTTWINE_VERSION - 1);
    expect_bytes("version's text", text, RAFTTWINE_VERSION, sizeof RAFTTWINE_VERSION);
}

void one_call(void) {
    rafttwine_version();
}

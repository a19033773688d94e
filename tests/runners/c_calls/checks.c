/* Reads samples, and counts what is as expected. */
#include "calls.h"

int right = 0;
int wrong = 0;

sample read_sample(const char *name) {
    sample one;
    int file = open(name, 0);
    long got = read(file, one.bytes, sizeof one.bytes);
    close(file);
    expect(name, got > 0 && got < (long)sizeof one.bytes, 1);
    one.length = got > 0 ? (size_t)got : 0;
    return one;
}

void expect(const char *what, long long found, long long expected) {
    if (found == expected) {
        right++;
        return;
    }
    wrong++;
    printf("%s: %lld, and should be %lld\n", what, found, expected);
}

void expect_bytes(const char *what, const void *found, const void *expected, size_t length) {
    expect(what, memcmp(found, expected, length), 0);
}

void expect_all(const char *what, int byte, const void *found, size_t length) {
    const uint8_t *bytes = found;
    size_t at = 0;
    while (at < length && bytes[at] == byte) at++;
    expect(what, (long long)at, (long long)length);
}

void expect_placed(rafttwine_placed found, enum rafttwine_refusal number, long long place, size_t length) {
    expect("number", found.number, number);
    expect("place", (long long)found.place, place);
    expect("length", (long long)found.length, (long long)length);
}

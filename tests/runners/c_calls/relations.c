/* A relation that takes as much stack as any: sixteen parentheses deep, a NOT before each, and in the innermost a hundred thousand NOT, a list
 * and a string. However long a relation is, it is no deeper than that. */
#include "calls.h"

#define DEPTH 16
#define NOTS 100000

uint8_t deep_relation[NOTS * 4 + 256];
size_t deep_relation_length;

static void add(const char *text) {
    while (*text != 0) deep_relation[deep_relation_length++] = (uint8_t)*text++;
}

void make_deep_relation(void) {
    deep_relation_length = 0;
    add("$VARCOND = 'A' IF ");
    for (int level = 0; level < DEPTH; level++) add("NOT (");
    for (int at = 0; at < NOTS; at++) add("NOT ");
    add("TOP = 'oak' AND WIDTH IN (1, 'two', 900)");
    for (int level = 0; level < DEPTH; level++) add(")");
}

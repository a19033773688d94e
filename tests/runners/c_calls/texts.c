/* Prints each number that can stand in the field `number`, and its text by the header. */
#include <stdio.h>

#include "rafttwine.h"

int main(void) {
    for (unsigned number = 0; number <= UINT8_MAX; number++) printf("%u %s\n", number, rafttwine_refusal_text(number));
    return 0;
}

/* How much stack a call takes: it is made on a stack that was painted before, and what is not painted any more was used. It may not be
 * more than the header says. The call is the program's first, so that what the loader takes to find memcpy and memset counts too.
 * Usage: PROGRAM FOLDER-OF-SAMPLES */
#define _XOPEN_SOURCE 700
#include <ucontext.h>
#include <unistd.h>

#include "calls.h"

#define PAINT 0x5A

static unsigned char stack[2 << 20];
static unsigned char *top;
static ucontext_t outside, inside;

static void on_painted_stack(void) {
    unsigned char here;
    top = &here;
    one_call();
}

int main(int count, char **words) {
    if (count != 2 || chdir(words[1]) != 0) return 2;
    prepare();
    for (size_t at = 0; at < sizeof stack; at++) stack[at] = PAINT;
    getcontext(&inside);
    inside.uc_stack.ss_sp = stack;
    inside.uc_stack.ss_size = sizeof stack;
    inside.uc_link = &outside;
    makecontext(&inside, on_painted_stack, 0);
    swapcontext(&outside, &inside);
    unsigned char *lowest = stack;
    while (*lowest == PAINT) lowest++;
    long used = (long)(top - lowest);
    printf("%ld bytes of stack, at most %ld\n", used, most_stack);
    return used > most_stack;
}

/* Holds a call's answers to the expected ones. Usage: PROGRAM FOLDER-OF-SAMPLES */
#include "calls.h"

int main(int count, char **words) {
    if (count != 2 || chdir(words[1]) != 0) return 2;
    prepare();
    check_call();
    printf("%d facts hold, %d do not\n", right, wrong);
    return wrong != 0;
}

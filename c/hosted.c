/* Runs the calls under a libc. */
#include <stdio.h>
#include "calls.h"

int main(void) {
    int wrong = calls_wrong();
    if (wrong) printf("%d expectations are not met, the first in line %d of c/calls.c\n", wrong, calls_first_wrong_line);
    return wrong != 0;
}

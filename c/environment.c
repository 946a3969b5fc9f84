/* An entry of +2^-1074, which is above 0 and not good, as the processor keeps subnormal numbers or takes them for zero (DAZ, FTZ). The check
 * looks at the entry's bits, so it is refused either way: alone in a small table, as in the gate post P6 of RULES 9, and in a table that is
 * long enough to be looked at in blocks. Compared as a float, it would pass for zero where subnormal numbers are. Its negative is good, and
 * is accepted either way. The program says which of the two it is, what a comparison of floats would say, and what became of the entries.
 *
 *   environment [flush]       as the process starts; or with subnormal numbers taken for zero
 */
#include <stdio.h>
#include <pmmintrin.h>
#include "wasnugram.h"

enum { STATES = 32, PLACE = 200 };

static const double TRANSITION[] = { -1, -2, -2, -1 }, EMISSION[] = { -1, -3, -3, 0x1p-1074 }, INITIAL[] = { -1, -2 }, END[] = { 0, 0 };
static double long_transition[STATES * STATES], zeros[STATES];

static void print_answer(const char *model, wasnugram_answer a) {
    if (a.refusal == WASNUGRAM_DONE) printf("%s: accepted\n", model);
    else printf("%s: refused with %d, table %d, place %zu\n", model, a.refusal, a.table, a.place);
}

int main(int argc, char **argv) {
    (void)argv;
    if (argc > 1) {
        _MM_SET_DENORMALS_ZERO_MODE(_MM_DENORMALS_ZERO_ON);
        _MM_SET_FLUSH_ZERO_MODE(_MM_FLUSH_ZERO_ON);
    }
    int is_kept = _MM_GET_DENORMALS_ZERO_MODE() == _MM_DENORMALS_ZERO_OFF;
    volatile double entry = 0x1p-1074;
    printf("subnormal numbers %s, +2^-1074 %s as a float\n", is_kept ? "kept" : "taken for zero", entry > 0 ? "is above 0" : "passes for 0");
    wasnugram_model post = { { 2, 2, 0 }, TRANSITION, EMISSION, INITIAL, END };
    print_answer("P6", wasnugram_check_of(&post));
    long_transition[PLACE] = 0x1p-1074;
    wasnugram_model large = { { STATES, 1, 0 }, long_transition, zeros, zeros, zeros };
    print_answer("a long table", wasnugram_check_of(&large));
    long_transition[PLACE] = -0x1p-1074;
    print_answer("a long table with -2^-1074", wasnugram_check_of(&large));
    return 0;
}

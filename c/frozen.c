/* Replays the frozen list of whole answers (rust/FROZEN.md) through the C face. Each buffer of a case lies in memory of its own, of
 * exactly its length. The answer and every lent word are compared, surplus and inputs included. The cases that the list marks as altered
 * must differ, and no other may.
 *
 *   frozen LIST          a line for each call: how many cases are the same and how many differ, and the same of altered cases
 *   frozen LIST alter    alters each expected word of each case that is the same, one at a time: how many are the same still
 */
#include <stdio.h>
#include <stdlib.h>
#include <string.h>
#include "wasnugram.h"

enum { MOST_LISTS = 12, ALTERED = 64, ANSWER = 1, FIRST_LIST = 5 };
enum { READ_MODEL = 18, WRITE_MODEL = 19, FILE_LENGTH = 20, RIVAL = 21 };

/* The calls by number, without a name where the face does not have one, and their lists: w words of what is no lent memory (a shape, an
 * index, what is given beside an answer), n doubles, s samples, b bytes; inputs, then outputs. */
static const struct {
    const char *name, *inputs, *outputs;
} CALLS[] = {
    { "viterbi", "wnnnns", "bnb" },
    { "forward", "wnnnns", "n" },
    { "backward", "wnnnns", "n" },
    { "baum_welch", "wnnnns", "nnnnnn" },
    { "exp", "n", "" },
    { "ln", "n", "" },
    { "ln_one_minus_exp", "n", "" },
    { "ln_sum_exp", "n", "" },
    { "ln_add_exp", "n", "" },
    { "ln_sub_exp", "n", "" },
    { "ln_cumsum_exp", "n", "n" },
    { "cap_numerical_overshoot", "n", "" },
    [READ_MODEL] = { "read_model", "b", "wnnnn" },
    [WRITE_MODEL] = { "write_model", "wnnnn", "b" },
    [FILE_LENGTH] = { "file_length", "w", "" },
    [RIVAL] = { "rival", "wnnnnsw", "wbbnb" },
};
enum { FROZEN_CALLS = sizeof CALLS / sizeof CALLS[0] };

/* A list of a case, and the memory that is lent for it. */
struct list {
    char kind;
    int is_output;
    size_t length;
    uint64_t *words;
    void *lent;
};

static struct list lists[MOST_LISTS];
static size_t lists_length;

static void not_whole(void) {
    printf("the list is not whole\n");
    exit(1);
}

/* Finds the lists of a case: whether they end where the case ends. */
static int find_lists(uint64_t *words, size_t length, size_t call) {
    const char *inputs = CALLS[call].inputs, *outputs = CALLS[call].outputs;
    size_t at = FIRST_LIST, inputs_length = strlen(inputs);
    lists_length = inputs_length + strlen(outputs);
    for (size_t i = 0; i < lists_length; i++) {
        struct list *list = &lists[i];
        list->is_output = i >= inputs_length;
        list->kind = list->is_output ? outputs[i - inputs_length] : inputs[i];
        if (at >= length || words[at] > length - at - 1) return 0;
        list->length = (size_t)words[at];
        list->words = words + at + 1;
        at += 1 + list->length;
    }
    return at == length;
}

static size_t entry_size(char kind) {
    return kind == 'b' ? 1 : kind == 's' ? sizeof(uint16_t) : sizeof(uint64_t);
}

/* The i-th entry that is lent, as a word. */
static uint64_t lent_word(const struct list *list, size_t i) {
    uint64_t word = 0;
    memcpy(&word, (char *)list->lent + i * entry_size(list->kind), entry_size(list->kind));
    return word;
}

/* Lends an input as it is in the list, and an output with every byte 0xa5. */
static void lend(struct list *list) {
    size_t size = entry_size(list->kind);
    list->lent = malloc(list->length * size);
    if (!list->lent && list->length) exit(2);
    if (list->is_output && list->length) memset(list->lent, 0xa5, list->length * size);
    for (size_t i = 0; !list->is_output && i < list->length; i++) memcpy((char *)list->lent + i * size, &list->words[i], size);
}

#define LENT(i) lists[i].lent, lists[i].length
#define TABLES LENT(1), LENT(2), LENT(3), LENT(4)
#define MODEL shape, TABLES, LENT(5)

/* Reads a model file: the shape that is given is an output of three words. */
static wasnugram_answer read_model(void) {
    if (lists[1].length != 3) not_whole();
    wasnugram_reading r = wasnugram_read_model(LENT(0), LENT(2), LENT(3), LENT(4), LENT(5));
    memcpy(lists[1].lent, (uint64_t[]){ r.shape.states, r.shape.symbols, r.shape.ends }, 3 * sizeof(uint64_t));
    return r.answer;
}

/* The rival at an index: the chosen state and the best path's score are an output of two words. */
static wasnugram_answer rival(wasnugram_shape shape) {
    if (lists[6].length != 1 || lists[7].length != 2) not_whole();
    wasnugram_rivalry r = wasnugram_rival(MODEL, (size_t)lists[6].words[0], LENT(8), LENT(9), LENT(10), LENT(11));
    memcpy(lists[7].lent, (uint64_t[]){ r.chosen, 0 }, 2 * sizeof(uint64_t));
    memcpy((uint64_t *)lists[7].lent + 1, &r.best, sizeof r.best);
    return r.answer;
}

/* The length of a model file, which is the value of its case. */
static wasnugram_answer file_length(wasnugram_shape shape) {
    return (wasnugram_answer){ WASNUGRAM_DONE, 0, 0, (double)wasnugram_model_file_length(shape) };
}

static wasnugram_answer call_on_model(size_t call) {
    const uint64_t *s = lists[0].words;
    if (lists[0].length != 3) not_whole();
    wasnugram_shape shape = { (size_t)s[0], (size_t)s[1], (uint8_t)s[2] };
    switch (call) {
    case WRITE_MODEL: return wasnugram_write_model(shape, TABLES, LENT(5));
    case FILE_LENGTH: return file_length(shape);
    case RIVAL: return rival(shape);
    case 0: return wasnugram_viterbi(MODEL, LENT(6), LENT(7), LENT(8));
    case 1: return wasnugram_forward(MODEL, LENT(6));
    case 2: return wasnugram_backward(MODEL, LENT(6));
    default: return wasnugram_baum_welch(MODEL, LENT(6), LENT(7), LENT(8), LENT(9), LENT(10), LENT(11));
    }
}

static wasnugram_answer call_on_numbers(size_t call) {
    const double *x = lists[0].lent;
    size_t arguments = call == 8 || call == 9 || call == 11 ? 2 : 1;
    if (call != 7 && call != 10 && lists[0].length != arguments) not_whole();
    switch (call) {
    case 4: return wasnugram_exp(x[0]);
    case 5: return wasnugram_ln(x[0]);
    case 6: return wasnugram_ln_one_minus_exp(x[0]);
    case 7: return wasnugram_ln_sum_exp(LENT(0));
    case 8: return wasnugram_ln_add_exp(x[0], x[1]);
    case 9: return wasnugram_ln_sub_exp(x[0], x[1]);
    case 10: return wasnugram_ln_cumsum_exp(LENT(0), LENT(1));
    default: return wasnugram_cap_numerical_overshoot(x[0], x[1]);
    }
}

static wasnugram_answer made(size_t call) {
    if (call == READ_MODEL) return read_model();
    return CALLS[call].inputs[0] == 'w' ? call_on_model(call) : call_on_numbers(call);
}

static int answer_differs(wasnugram_answer a, const uint64_t *expected) {
    uint64_t value;
    memcpy(&value, &a.value, sizeof value);
    return a.refusal != expected[0] || a.table != expected[1] || a.place != expected[2] || value != expected[3];
}

static int list_differs(const struct list *list) {
    for (size_t i = 0; i < list->length; i++) {
        if (lent_word(list, i) != list->words[i]) return 1;
    }
    return 0;
}

/* Makes the call of a case whose lists are found: whether the answer or anything that was lent is another than the case says. */
static int differs(size_t call, const uint64_t *words) {
    for (size_t i = 0; i < lists_length; i++) lend(&lists[i]);
    int so = answer_differs(made(call), words + ANSWER);
    for (size_t i = 0; i < lists_length; i++) {
        so |= list_differs(&lists[i]);
        free(lists[i].lent);
    }
    return so;
}

/* How many cases of each call there are: altered or not, different or not. */
static size_t cases[2][2][FROZEN_CALLS];
/* How many words were altered here, and how many of them went unseen. */
static size_t altered, unseen;

/* Alters each of these words of a case in turn. */
static void alter_words(size_t call, const uint64_t *words, uint64_t *expected, size_t length) {
    for (size_t i = 0; i < length; i++) {
        expected[i] ^= 1;
        altered++;
        unseen += !differs(call, words);
        expected[i] ^= 1;
    }
}

/* Alters every expected word of a case: the answer and the outputs. */
static void alter(size_t call, uint64_t *words) {
    alter_words(call, words, words + ANSWER, 4);
    for (size_t i = 0; i < lists_length; i++) {
        if (lists[i].is_output) alter_words(call, words, lists[i].words, lists[i].length);
    }
}

/* Replays a case, unless it is of a call that C does not have. */
static void replay(uint64_t *words, size_t length, int is_to_alter) {
    if (length < FIRST_LIST || words[0] >= 2 * ALTERED || words[0] % ALTERED >= FROZEN_CALLS) not_whole();
    size_t call = (size_t)words[0] % ALTERED, is_altered = (size_t)words[0] / ALTERED;
    if (!CALLS[call].name) return;
    int so = !find_lists(words, length, call) || differs(call, words);
    cases[is_altered][so][call]++;
    if (is_to_alter && !so) alter(call, words);
}

static void replay_all(uint64_t *words, size_t length, int is_to_alter) {
    size_t at = 1;
    for (uint64_t i = 0; i < words[0]; i++) {
        if (at >= length || words[at] > length - at - 1) not_whole();
        replay(words + at + 1, (size_t)words[at], is_to_alter);
        at += 1 + (size_t)words[at];
    }
    if (at != length) not_whole();
}

/* The words of a file, and how many there are. */
static uint64_t *read_list(const char *name, size_t *length) {
    FILE *file = fopen(name, "rb");
    if (!file || fseek(file, 0, SEEK_END)) exit(2);
    long size = ftell(file);
    rewind(file);
    if (size < 8 || size % 8) not_whole();
    *length = (size_t)size / 8;
    uint64_t *words = malloc((size_t)size);
    if (!words || fread(words, 8, *length, file) != *length) exit(2);
    fclose(file);
    return words;
}

/* A line for each call. Whether every call has cases that are the same, none that differs, and no altered one that is the same. */
static int print(void) {
    int so = 1;
    for (size_t call = 0; call < FROZEN_CALLS; call++) {
        if (!CALLS[call].name) continue;
        size_t same = cases[0][0][call], different = cases[0][1][call], missed = cases[1][0][call], seen = cases[1][1][call];
        printf("%-24s %zu same, %zu differ; altered: %zu same, %zu differ\n", CALLS[call].name, same, different, missed, seen);
        so &= same > 0 && different == 0 && missed == 0;
    }
    return so;
}

int main(int argc, char **argv) {
    size_t length;
    if (argc < 2) return 2;
    uint64_t *words = read_list(argv[1], &length);
    replay_all(words, length, argc > 2);
    free(words);
    if (argc == 2) return !print();
    printf("%zu expected words altered, %zu unseen\n", altered, unseen);
    return altered == 0 || unseen != 0;
}

/*
 * A host program as a tablet would have one: it loads a plan table, steps through a morning, prints the states after each step and, of
 * each plan that moved, why, writes the record of it to a file, reads that back and has it checked.
 *
 *   morning TABLE RECORD < WORDS
 *
 * Each line of WORDS is one step: for each plan its input word, in decimal, parted by blanks.
 */
#include <string.h>

#include "asbru_text.h"
#include "files.h"

static void fail(const char *what, const char *name) {
    fprintf(stderr, "morning: %s: %s\n", name, what);
    exit(1);
}

static uint8_t *load(const char *name, size_t *length) {
    uint8_t *bytes = read_file(name, length);
    if (!bytes) fail(strerror(errno), name);
    return bytes;
}

/* The words of one step, as bytes; 0 at the end of the input. */
static int read_words(uint8_t *words, size_t plans) {
    for (size_t p = 0; p < plans; p++) {
        unsigned long word;
        if (scanf("%lu", &word) != 1) {
            if (p > 0) fail("a step lacks words", "standard input");
            return 0;
        }
        asbru_put_word(words, p, (uint32_t)word);
    }
    return 1;
}

static void print_step(unsigned step, const uint8_t *states, const uint8_t *causes, size_t plans) {
    printf("%2u", step);
    for (size_t p = 0; p < plans; p++) {
        printf("%s %s", p ? "," : "", asbru_state_text(states[p]));
        if (causes[p] != ASBRU_UNMOVED) printf(" (%s)", asbru_cause_text(causes[p]));
    }
    printf("\n");
}

/* Ends the morning where a call is refused, with what the answer says. */
static void need(uint64_t answer) {
    if (asbru_number(answer) == ASBRU_DONE) return;
    const char *place = asbru_number(answer) == ASBRU_REFUSED_FORMULA ? "node" : "plan";
    printf("refused %u, step %u, %s %u: %s\n", asbru_number(answer), asbru_step_of(answer), place, asbru_plan(answer),
           asbru_number_text(asbru_number(answer)));
    exit(1);
}

int main(int argc, char **argv) {
    if (argc != 3) fail("morning TABLE RECORD < WORDS", "usage");
    size_t table_length;
    uint8_t *table = load(argv[1], &table_length);
    size_t plans = table_length < ASBRU_HEADER ? 0 : table[5] + 256u * table[6]; /* not by the length: in version 2 nodes follow */
    if (plans < 1 || plans > ASBRU_MOST_PLANS) fail("is no table", argv[1]);

    FILE *file = fopen(argv[2], "wb");
    if (!file) fail("cannot be written", argv[2]);
    uint8_t part[(ASBRU_WORD + 1) * ASBRU_MOST_PLANS];
    asbru_put_header(part, 'R', (unsigned)plans);
    fwrite(part, 1, ASBRU_HEADER, file);

    uint8_t states[ASBRU_MOST_PLANS] = {0}, causes[ASBRU_MOST_PLANS];
    uint8_t words[ASBRU_WORD * ASBRU_MOST_PLANS];
    for (unsigned step = 1; read_words(words, plans); step++) {
        need(asbru_step(ASBRU_RULE_2, table, table_length, states, plans, words, ASBRU_WORD * plans, causes, plans));
        print_step(step, states, causes, plans);
        asbru_put_step(part, plans, words, states);
        fwrite(part, 1, asbru_step_size(plans), file);
    }
    if (fclose(file) != 0) fail("cannot be written", argv[2]);

    /* where words of 0 lead from here; they are idle only under a table without filter, setup and if-then-else */
    memset(words, 0, sizeof words);
    uint64_t bound = asbru_bound(table, table_length, words, ASBRU_WORD * plans);
    need(bound);
    uint16_t budget = asbru_plan(bound) == 0 ? (uint16_t)asbru_step_of(bound) : 1000;
    uint64_t rest = asbru_rest(ASBRU_RULE_2, table, table_length, states, plans, words, ASBRU_WORD * plans, causes, plans, budget);
    need(rest);
    printf("%s after %u steps\n", asbru_plan(rest) == 0 ? "at rest" : "still moving", asbru_step_of(rest));

    size_t record_length;
    uint8_t *record = load(argv[2], &record_length);
    uint64_t verdict = asbru_check(ASBRU_RULE_2, table, table_length, record, record_length);
    need(verdict);
    printf("accepted: %u steps\n", asbru_step_of(verdict));
    free(record);
    free(table);
    return 0;
}

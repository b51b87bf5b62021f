/*
 * A host that makes its words from readings: asbru_sample, asbru_pattern and asbru_with_pattern, then asbru_step.
 *
 *   held_morning < READINGS
 *
 * Each line of READINGS is a minute of the morning and the bilirubin then; they are printed with the word (1 filter satisfied, 64 filter
 * satisfiable, 32 complete satisfied) and the state after the step. The pattern is 'it falls', and there is one plan. Its filter: within
 * the first three hours it begins to fall, and does so for an hour. These bounds are counted from minute 0, so the answer may be open for a
 * while. The plan completes once it has fallen for the last two hours: these are counted from the minute of asking, which moves on.
 */
#include <inttypes.h>
#include <stdio.h>
#include <stdlib.h>

#include "asbru_text.h"

static uint64_t need(uint64_t answer) {
    if (asbru_number(answer) == ASBRU_DONE) return answer;
    printf("refused %u: %s\n", asbru_number(answer), asbru_number_text(asbru_number(answer)));
    exit(1);
}

int main(void) {
    uint8_t table[ASBRU_HEADER + ASBRU_ENTRY] = {0}, words[ASBRU_WORD], state = ASBRU_INACTIVE, cause; /* of a leaf */
    asbru_put_header(table, 'T', 1);
    table[8] = table[9] = 0xFF; /* ASBRU_NO_PARENT */
    table[12] = ASBRU_BIT(ASBRU_FILTER) | ASBRU_BIT(ASBRU_COMPLETE);
    const int64_t hour_of_three[ASBRU_BOUNDS] = {0, 180, ASBRU_OPEN, ASBRU_OPEN, 60, ASBRU_OPEN, 0};
    int64_t last_two_hours[ASBRU_BOUNDS] = {-120, ASBRU_OPEN, ASBRU_OPEN, 0, 120, ASBRU_OPEN, 0};

    int64_t samples[ASBRU_MOST_SAMPLES], minute;
    double level, before = 0;
    for (size_t count = 0; count < ASBRU_MOST_SAMPLES && scanf("%" SCNd64 " %lf", &minute, &level) == 2; before = level) {
        samples[count++] = asbru_sample(minute, level < before);
        last_two_hours[ASBRU_REFERENCE_POINT] = minute;
        uint32_t word = 0;
        word = asbru_with_pattern(word, ASBRU_FILTER, need(asbru_pattern(hour_of_three, samples, count, minute)));
        word = asbru_with_pattern(word, ASBRU_COMPLETE, need(asbru_pattern(last_two_hours, samples, count, minute)));
        asbru_put_word(words, 0, word);
        need(asbru_step(ASBRU_RULE_2, table, sizeof table, &state, 1, words, sizeof words, &cause, 1));
        printf("%3" PRId64 " %4.1f word %2" PRIu32 " %s\n", minute, level, word, asbru_state_text(state));
    }
    return 0;
}

/*
 * The library behind a pipe: reads calls from standard input, makes them, and writes what they answer and leave, for host/differ.rs and
 * host/bounds.rs to compare. With the argument `plain` the calls go to host/plain.c instead. All numbers are little-endian.
 *
 *   call:   kind (1 byte: 1 step, 2 rest, 3 check, 4 to version 1, 5 to version 2, 6 bound), the rule (4 bytes), the lengths of table,
 *           states, words and causes (4 bytes each; of a check the words are the record; of a check and of a bound the states are empty;
 *           of a move the states are what stands in the output, and the words are empty; but of a step and a run the causes are empty),
 *           the budget (2 bytes), then the bytes of table, states and words, and those that stand in the causes
 *   answer: the answer (8 bytes), the states, the causes, and 1 if the bytes around all buffers are as they were, and those of table and
 *           words
 */
#include "asbru.h"
#include "buffers.h"
#include "plain.h"

typedef struct {
    uint64_t (*step)(uint32_t, const uint8_t *, size_t, uint8_t *, size_t, const uint8_t *, size_t, uint8_t *, size_t);
    uint64_t (*rest)(uint32_t, const uint8_t *, size_t, uint8_t *, size_t, const uint8_t *, size_t, uint8_t *, size_t, uint16_t);
    uint64_t (*check)(uint32_t, const uint8_t *, size_t, const uint8_t *, size_t);
    uint64_t (*to_version_1)(const uint8_t *, size_t, uint8_t *, size_t);
    uint64_t (*to_version_2)(const uint8_t *, size_t, uint8_t *, size_t);
    uint64_t (*bound)(const uint8_t *, size_t, const uint8_t *, size_t);
} Calls;

int main(int argc, char **argv) {
    static const Calls library = {asbru_step, asbru_rest, asbru_check, asbru_to_version_1, asbru_to_version_2, asbru_bound};
    static const Calls plain = {plain_step, plain_rest, plain_check, plain_to_version_1, plain_to_version_2, plain_bound};
    const Calls *calls = argc > 1 && strcmp(argv[1], "plain") == 0 ? &plain : &library;
    for (int kind; (kind = getchar()) != EOF;) {
        uint32_t rule = (uint32_t)number(4);
        size_t lengths[4];
        for (int k = 0; k < 4; k++) lengths[k] = (size_t)number(4);
        uint16_t budget = (uint16_t)number(2);
        Buffer table = take(lengths[0]), states = take(lengths[1]), words = take(lengths[2]), causes = take(lengths[3]);
        /* an empty output may be NULL, and so may empty causes, and here they are */
        uint8_t *output = states.length ? states.bytes : NULL, *why = causes.length ? causes.bytes : NULL;
        uint64_t answer = 0;
        switch (kind) {
        case 1:
            answer = calls->step(rule, table.bytes, table.length, states.bytes, states.length, words.bytes, words.length, why,
                                 causes.length);
            break;
        case 2:
            answer = calls->rest(rule, table.bytes, table.length, states.bytes, states.length, words.bytes, words.length, why,
                                 causes.length, budget);
            break;
        case 3:
            answer = calls->check(rule, table.bytes, table.length, words.bytes, words.length);
            break;
        case 4:
            answer = calls->to_version_1(table.bytes, table.length, output, states.length);
            break;
        case 5:
            answer = calls->to_version_2(table.bytes, table.length, output, states.length);
            break;
        case 6:
            answer = calls->bound(table.bytes, table.length, words.bytes, words.length);
            break;
        default:
            need(0, "no such call");
        }
        int around = guarded(&table) && guarded(&states) && guarded(&words) && guarded(&causes);
        const Buffer *left[2] = {&states, &causes};
        reply(answer, left, 2, around && unchanged(&table) && unchanged(&words));
        drop(&table), drop(&states), drop(&words), drop(&causes);
    }
    return 0;
}

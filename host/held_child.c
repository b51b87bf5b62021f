/*
 * The library's calls for patterns behind a pipe: reads calls from standard input, makes them, and writes what they answer and leave, for
 * host/held.rs to compare. With the argument `plain` the calls go to host/plain_held.c instead. All numbers are little-endian, as they are
 * on the machines that the archive is for, so that bytes of the pipe are an annotation and samples as they stand.
 *
 *   call:   kind (1 byte: 1 pattern, 2 normalise, 3 with_pattern), word and condition (4 bytes each), the minute of asking or the answer
 *           to be put into the word (8 bytes), the lengths of annotation and samples (4 bytes each), then their bytes
 *   answer: the answer or the word (8 bytes), the annotation, and 1 if all other bytes that were lent and those around them are as they
 *           were
 */
#include "asbru.h"
#include "buffers.h"
#include "plain.h"

typedef struct {
    uint64_t (*pattern)(const int64_t *, const int64_t *, size_t, int64_t);
    uint64_t (*normalise)(int64_t *);
    uint32_t (*with_pattern)(uint32_t, uint32_t, uint64_t);
} Calls;

int main(int argc, char **argv) {
    static const Calls library = {asbru_pattern, asbru_normalise, asbru_with_pattern};
    static const Calls plain = {plain_pattern, plain_normalise, plain_with_pattern};
    const Calls *calls = argc > 1 && strcmp(argv[1], "plain") == 0 ? &plain : &library;
    for (int kind; (kind = getchar()) != EOF;) {
        uint32_t word = (uint32_t)number(4), condition = (uint32_t)number(4);
        uint64_t asked_or_answer = number(8);
        size_t lengths[2];
        for (int k = 0; k < 2; k++) lengths[k] = (size_t)number(4);
        Buffer annotation = take(lengths[0]), samples = take(lengths[1]);
        /* no samples may be NULL, and here they are */
        int64_t *bounds = (int64_t *)annotation.bytes, *first = samples.length ? (int64_t *)samples.bytes : NULL;
        uint64_t answer = 0;
        switch (kind) {
        case 1:
            answer = calls->pattern(bounds, first, samples.length / sizeof *first, (int64_t)asked_or_answer);
            break;
        case 2:
            answer = calls->normalise(bounds);
            break;
        case 3:
            answer = calls->with_pattern(word, condition, asked_or_answer);
            break;
        default:
            need(0, "no such call");
        }
        const Buffer *left = &annotation;
        reply(answer, &left, 1, guarded(&annotation) && guarded(&samples) && unchanged(&samples));
        drop(&annotation), drop(&samples);
    }
    return 0;
}

/* Functions of our own in place of the archive's: each notes what it was given and answers with the status that is expected of it. */
#ifndef NOTING_H
#define NOTING_H

#include "mensorique.h"

static int called;           /* how many calls there were since `expect` */
static uint32_t answer_with; /* the status that they give */

/* What the last call was given, in order: buffers as their address and length. */
static uintptr_t given[16];
static size_t many;

static void expect(uint32_t status) {
    called = 0;
    many = 0;
    answer_with = status;
}
static void note(uintptr_t value) { given[many++] = value; }
static void note_buffer(const void *at, size_t length) {
    note((uintptr_t)at);
    note(length);
}
/* Is it granted? If not, a place of 77. */
static int granted(size_t *place) {
    called++;
    if (answer_with != MENSORIQUE_GRANTED)
        *place = 77;
    return answer_with == MENSORIQUE_GRANTED;
}

#ifdef __cplusplus
extern "C" {
#endif

size_t mensorique_room_words(size_t depth, size_t size) { return 1000 * depth + size; }

uint32_t mensorique_read_question(const uint8_t *text, size_t text_length, uint8_t *arities, size_t arities_length, uint16_t *words, size_t words_length,
                                  size_t *unknowns, size_t *functors, size_t *equations, size_t *used, size_t *place) {
    note_buffer(text, text_length);
    note_buffer(arities, arities_length);
    note_buffer(words, words_length);
    if (granted(place)) {
        *unknowns = 11;
        *functors = 12;
        *equations = 13;
        *used = 14;
    }
    return answer_with;
}

uint32_t mensorique_write_question(size_t unknowns, const uint8_t *arities, size_t arities_length, size_t equations, const uint16_t *words,
                                   size_t words_length, uint8_t *text, size_t text_length, size_t *length, size_t *place) {
    note(unknowns);
    note_buffer(arities, arities_length);
    note(equations);
    note_buffer(words, words_length);
    note_buffer(text, text_length);
    if (granted(place))
        *length = 15;
    return answer_with;
}

uint32_t mensorique_write_answers(const uint8_t *arities, size_t arities_length, uint64_t end, uint64_t visited, size_t answers, const uint16_t *words,
                                  size_t words_length, uint8_t *text, size_t text_length, size_t *length, size_t *place) {
    note_buffer(arities, arities_length);
    note(end);
    note(visited);
    note(answers);
    note_buffer(words, words_length);
    note_buffer(text, text_length);
    if (granted(place))
        *length = 16;
    return answer_with;
}

uint32_t mensorique_equal(const uint8_t *arities, size_t arities_length, const uint16_t *row, size_t row_length, uint32_t *equal, size_t *place) {
    note_buffer(arities, arities_length);
    note_buffer(row, row_length);
    if (granted(place))
        *equal = MENSORIQUE_YES;
    return answer_with;
}

uint32_t mensorique_solves(size_t unknowns, const uint8_t *arities, size_t arities_length, size_t equations, const uint16_t *words, size_t words_length,
                           const uint16_t *row, size_t row_length, uint32_t *solves, size_t *place) {
    note(unknowns);
    note_buffer(arities, arities_length);
    note(equations);
    note_buffer(words, words_length);
    note_buffer(row, row_length);
    if (granted(place))
        *solves = MENSORIQUE_NO;
    return answer_with;
}

uint32_t mensorique_run(size_t unknowns, const uint8_t *arities, size_t arities_length, size_t equations, const uint16_t *words, size_t words_length,
                        uint64_t steps, size_t depth, size_t size, uint16_t *answers, size_t answers_length, uint16_t *room, size_t room_length,
                        uint32_t *end, uint64_t *visited, uint64_t *count, size_t *used, size_t *place) {
    note(unknowns);
    note_buffer(arities, arities_length);
    note(equations);
    note_buffer(words, words_length);
    note(steps);
    note(depth);
    note(size);
    note_buffer(answers, answers_length);
    note_buffer(room, room_length);
    if (granted(place)) {
        *end = MENSORIQUE_END_SIZE;
        *visited = 17;
        *count = 18;
        *used = 19;
    }
    return answer_with;
}

#ifdef __cplusplus
}
#endif

#endif

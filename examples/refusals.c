/* What refusing looks like: every function is called with inputs at and beyond the edges. Each line tells the call's status and place; the program ends with
 * status 1 where a refusal wrote to a lent buffer or to an out number other than the place. */
#include "mensorique.h"

#include <inttypes.h>
#include <stdio.h>
#include <string.h>

enum { MARK = 77, SPACE = 64 };

/* What every call lends: buffers and out numbers that hold marks. */
static uint8_t text[SPACE], read_arities[SPACE];
static uint16_t read_words[SPACE], answers[SPACE], room[MENSORIQUE_ROOM_WORDS(4, 8)];
static size_t unknowns, functors, equations, used, length, place;
static uint32_t equal, solves, end;
static uint64_t visited, count;
static int faults;

static void mark(void) {
    memset(text, MARK, sizeof text);
    memset(read_arities, MARK, sizeof read_arities);
    memset(read_words, MARK, sizeof read_words);
    memset(answers, MARK, sizeof answers);
    memset(room, MARK, sizeof room);
    unknowns = functors = equations = used = length = place = MARK;
    equal = solves = end = MARK;
    visited = count = MARK;
}

static int marked(const void *buffer, size_t bytes) {
    const unsigned char *at = (const unsigned char *)buffer;
    for (size_t i = 0; i < bytes; i++)
        if (at[i] != MARK)
            return 0;
    return 1;
}

static int untouched(void) {
    return marked(text, sizeof text) && marked(read_arities, sizeof read_arities) && marked(read_words, sizeof read_words) &&
           marked(answers, sizeof answers) && marked(room, sizeof room) && unknowns == MARK && functors == MARK && equations == MARK &&
           used == MARK && length == MARK && equal == MARK && solves == MARK && end == MARK && visited == MARK && count == MARK;
}

/* Prints a call's status, looks at what it left alone, and marks everything anew. */
static void told(const char *what, uint32_t status) {
    if (status == MENSORIQUE_GRANTED) {
        printf("%s: granted\n", what);
        faults += place != MARK;
    } else {
        printf("%s: refused=%" PRIu32 " place=%zu\n", what, status, place);
        faults += !untouched();
    }
    mark();
}

/* x0 = {f0|x0}, with f0 without arguments */
static const uint8_t arities[] = {0};
static const uint16_t words[] = {MENSORIQUE_UNKNOWN(0), MENSORIQUE_WITH, MENSORIQUE_FUNCTOR(0), MENSORIQUE_UNKNOWN(0)};
static const uint16_t bad_words[] = {MENSORIQUE_UNKNOWN(0), 65535};
static const uint8_t bad_arities[] = {9};
static const uint16_t many_words[MENSORIQUE_MOST_WORDS + 1] = {0};

static uint32_t read_lines(const char *lines, size_t arities_length, size_t words_length) {
    return mensorique_read_question((const uint8_t *)lines, strlen(lines), read_arities, arities_length, read_words, words_length, &unknowns, &functors,
                                    &equations, &used, &place);
}

static void reading(void) {
    const char *good = "edition=1\nunknowns=1\narities=0\nequations=1\nleft=x0\nright={f0|x0}\n";
    told("read nothing, into nothing", mensorique_read_question(NULL, 0, NULL, 0, NULL, 0, &unknowns, &functors, &equations, &used, &place));
    told("read edition 2", read_lines("edition=2\n", SPACE, SPACE));
    told("read a leading zero", read_lines("edition=1\nunknowns=01\n", SPACE, SPACE));
    told("read 257 unknowns", read_lines("edition=1\nunknowns=257\n", SPACE, SPACE));
    told("read x1 of one unknown", read_lines("edition=1\nunknowns=1\narities=\nequations=1\nleft=x1\n", SPACE, SPACE));
    told("read f0 without its argument", read_lines("edition=1\nunknowns=0\narities=1\nequations=1\nleft=f0\n", SPACE, SPACE));
    told("read into no arities", read_lines(good, 0, SPACE));
    told("read into three words", read_lines(good, 1, 3));
    told("read into four words", read_lines(good, 1, 4));
}

static uint32_t write_words(size_t u, const uint8_t *a, size_t an, size_t e, const uint16_t *w, size_t wn, size_t text_length) {
    return mensorique_write_question(u, a, an, e, w, wn, text, text_length, &length, &place);
}

static uint32_t write_list(uint64_t as, uint64_t seen, size_t n, const uint16_t *w, size_t wn, size_t text_length) {
    return mensorique_write_answers(arities, 1, as, seen, n, w, wn, text, text_length, &length, &place);
}

static void writing(void) {
    static const uint16_t list[] = {1, 0, MENSORIQUE_WITH, MENSORIQUE_FUNCTOR(0), MENSORIQUE_UNKNOWN(1)};
    told("write no question, into nothing", mensorique_write_question(0, NULL, 0, 0, NULL, 0, NULL, 0, &length, &place));
    told("write SIZE_MAX unknowns", write_words(SIZE_MAX, arities, 1, 1, words, 4, SPACE));
    told("write SIZE_MAX equations", write_words(1, arities, 1, SIZE_MAX, words, 4, SPACE));
    told("write arity 9", write_words(1, bad_arities, 1, 1, words, 4, SPACE));
    told("write 4097 words", write_words(1, arities, 1, 1, many_words, MENSORIQUE_MOST_WORDS + 1, SPACE));
    told("write the word 65535", write_words(1, arities, 1, 1, bad_words, 2, SPACE));
    told("write a word too few", write_words(1, arities, 1, 1, words, 3, SPACE));
    told("write a byte short", write_words(1, arities, 1, 1, words, 4, SPACE));
    told("write the end 19", write_list(19, 3, 1, list, 5, SPACE));
    told("write UINT64_MAX visited", write_list(0, UINT64_MAX, 1, list, 5, SPACE));
    told("write SIZE_MAX answers", write_list(0, 3, SIZE_MAX, list, 5, SPACE));
    told("write a list's words left over", write_list(0, 3, 0, list, 5, SPACE));
    told("write a list, into nothing", write_list(0, 3, 1, list, 5, 0));
}

static void testing(void) {
    static const uint16_t row[] = {MENSORIQUE_WITH, MENSORIQUE_FUNCTOR(0), MENSORIQUE_EMPTY};
    told("equal of nothing", mensorique_equal(NULL, 0, NULL, 0, &equal, &place));
    told("equal of one term", mensorique_equal(arities, 1, row, 3, &equal, &place));
    told("equal of an unknown", mensorique_equal(arities, 1, words, 4, &equal, &place));
    told("equal of 4097 words", mensorique_equal(arities, 1, many_words, MENSORIQUE_MOST_WORDS + 1, &equal, &place));
    told("equal with arity 9", mensorique_equal(bad_arities, 1, row, 3, &equal, &place));
    told("solves without a value", mensorique_solves(1, arities, 1, 1, words, 4, NULL, 0, &solves, &place));
    told("solves of the word 65535", mensorique_solves(1, arities, 1, 1, bad_words, 2, row, 3, &solves, &place));
    told("solves of SIZE_MAX unknowns", mensorique_solves(SIZE_MAX, arities, 1, 1, words, 4, row, 3, &solves, &place));
    told("solves of no question", mensorique_solves(0, NULL, 0, 0, NULL, 0, NULL, 0, &solves, &place));
}

static uint32_t run(size_t u, const uint16_t *w, size_t wn, uint64_t steps, size_t depth, size_t size, size_t room_length) {
    return mensorique_run(u, arities, 1, 1, w, wn, steps, depth, size, answers, SPACE, room, room_length, &end, &visited, &count, &used, &place);
}

static void running(void) {
    const size_t enough = MENSORIQUE_ROOM_WORDS(4, 8);
    told("run with a step too many", run(1, words, 4, MENSORIQUE_MOST_STEPS + 1, 4, 8, enough));
    told("run with UINT64_MAX steps", run(1, words, 4, UINT64_MAX, 4, 8, enough));
    told("run with SIZE_MAX depth", run(1, words, 4, 100, SIZE_MAX, 8, enough));
    told("run with SIZE_MAX size", run(1, words, 4, 100, 4, SIZE_MAX, enough));
    told("run of SIZE_MAX unknowns", run(SIZE_MAX, words, 4, 100, 4, 8, enough));
    told("run of the word 65535", run(1, bad_words, 2, 100, 4, 8, enough));
    told("run in no room", mensorique_run(1, arities, 1, 1, words, 4, 100, 4, 8, NULL, 0, NULL, 0, &end, &visited, &count, &used, &place));
    told("run in a room one word short", run(1, words, 4, 100, 4, 8, enough - 1));
    told("run in just enough", run(1, words, 4, 100, 4, 8, enough));
    printf("room words: %zu, %zu above the depth's limit, %zu above the size's\n", mensorique_room_words(4, 8),
           mensorique_room_words(MENSORIQUE_MOST_DEPTH + 1, 8), mensorique_room_words(4, SIZE_MAX));
    faults += mensorique_room_words(4, 8) != enough;
}

int main(void) {
    mark();
    reading();
    writing();
    testing();
    running();
    if (faults > 0)
        printf("%d calls wrote what they leave alone\n", faults);
    return faults > 0;
}

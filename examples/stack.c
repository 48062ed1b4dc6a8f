/* How much stack the calls need: each is made on a thread whose stack was painted, with the deepest input that it takes, and the paint that is left is counted.
 * Ends with status 1 where a call needs more than MENSORIQUE_STACK. */
#define _POSIX_C_SOURCE 200809L
#include "mensorique.h"

#include <pthread.h>
#include <stdio.h>
#include <stdlib.h>
#include <string.h>

enum { PAINT = 0xA5, PAINTED = 8 * MENSORIQUE_STACK, PAGE = 4096 };

/* f0 has no arguments, f1 has one */
static const uint8_t arities[] = {0, 1};
static uint16_t words[MENSORIQUE_MOST_WORDS], row[MENSORIQUE_MOST_WORDS], answers[MENSORIQUE_MOST_WORDS];
static uint16_t room[MENSORIQUE_ROOM_WORDS(MENSORIQUE_MOST_DEPTH, MENSORIQUE_MOST_SIZE)];
static uint8_t text[65536];
static uint32_t status;

/* Appends a term of so many levels: of functors, or of sets, around the last word. */
static size_t nest(uint16_t *to, size_t at, size_t levels, int sets, uint16_t last) {
    for (size_t i = 0; i < levels; i++)
        to[at++] = sets ? MENSORIQUE_WITH : MENSORIQUE_FUNCTOR(1);
    to[at++] = last;
    for (size_t i = 0; sets && i < levels; i++)
        to[at++] = MENSORIQUE_EMPTY;
    return at;
}

static void none(int sets) { status = (uint32_t)(sets - sets); }

static void equal(int sets) {
    uint32_t same;
    size_t place, levels = sets ? 1023 : 2047;
    size_t n = nest(row, nest(row, 0, levels, sets, MENSORIQUE_FUNCTOR(0)), levels, sets, MENSORIQUE_FUNCTOR(0));
    status = mensorique_equal(arities, 2, row, n, &same, &place);
}

static void solve_nested(int sets, size_t asked, size_t given) {
    uint32_t solved;
    size_t place;
    size_t n = nest(words, nest(words, 0, asked, sets, MENSORIQUE_UNKNOWN(0)), asked, sets, MENSORIQUE_UNKNOWN(1));
    size_t m = nest(row, nest(row, 0, given, sets, MENSORIQUE_FUNCTOR(0)), given, sets, MENSORIQUE_FUNCTOR(0));
    status = mensorique_solves(2, arities, 2, 1, words, n, row, m, &solved, &place);
}

static void solves(int sets) {
    size_t levels = sets ? 1023 : 2047;
    solve_nested(sets, levels, levels);
}

/* As deep as a question may be that is compared as it stands: with its values put in it has 6,144 words. */
static void solves_plainly(int sets) {
    solve_nested(sets, sets ? 512 : 1024, sets ? 1023 : 2047);
}

/* Writes a question as deep as text may be, and reads it. */
static void write_and_read(int sets) {
    uint8_t read_arities[2];
    size_t length, unknowns, functors, equations, used, place;
    size_t n = nest(words, nest(words, 0, 200, sets, MENSORIQUE_UNKNOWN(0)), 200, sets, MENSORIQUE_UNKNOWN(1));
    status = mensorique_write_question(2, arities, 2, 1, words, n, text, sizeof text, &length, &place);
    if (status == MENSORIQUE_GRANTED)
        status = mensorique_read_question(text, length, read_arities, 2, row, MENSORIQUE_MOST_WORDS, &unknowns, &functors, &equations, &used, &place);
}

static void write_list(int sets) {
    size_t length, place;
    answers[0] = 1;
    answers[1] = 0;
    size_t n = nest(answers, 2, 200, sets, MENSORIQUE_UNKNOWN(1));
    status = mensorique_write_answers(arities, 2, 0, 1, 1, answers, n, text, sizeof text, &length, &place);
}

static void run_words(const uint16_t *asked, size_t equations, size_t n) {
    uint32_t end;
    uint64_t visited, count;
    size_t used, place;
    status = mensorique_run(2, arities, 2, equations, asked, n, 100000, MENSORIQUE_MOST_DEPTH, MENSORIQUE_MOST_SIZE, answers, MENSORIQUE_MOST_WORDS, room,
                            sizeof room / sizeof room[0], &end, &visited, &count, &used, &place);
}

/* Runs a deep question, and one that goes through every kind of step: {f0|x0} = {f0|x1}, {f0|x0} = {f1(x1)|x0}, x0 = {f0|x0}. */
static void run(int sets) {
    static const uint16_t tails[] = {
        MENSORIQUE_WITH,       MENSORIQUE_FUNCTOR(0), MENSORIQUE_UNKNOWN(0), MENSORIQUE_WITH, MENSORIQUE_FUNCTOR(0), MENSORIQUE_UNKNOWN(1),
        MENSORIQUE_WITH,       MENSORIQUE_FUNCTOR(0), MENSORIQUE_UNKNOWN(0), MENSORIQUE_WITH, MENSORIQUE_FUNCTOR(1), MENSORIQUE_UNKNOWN(1),
        MENSORIQUE_UNKNOWN(0), MENSORIQUE_UNKNOWN(0), MENSORIQUE_WITH,       MENSORIQUE_FUNCTOR(0), MENSORIQUE_UNKNOWN(0),
    };
    size_t levels = sets ? 1023 : 2047;
    size_t n = nest(words, nest(words, 0, levels, sets, MENSORIQUE_UNKNOWN(0)), levels, sets, MENSORIQUE_UNKNOWN(1));
    run_words(words, 1, n);
    if (status == MENSORIQUE_GRANTED)
        run_words(tails, 3, sizeof tails / sizeof tails[0]);
}

struct call {
    void (*made)(int);
    int sets;
};

static void *make(void *call) {
    ((struct call *)call)->made(((struct call *)call)->sets);
    return NULL;
}

/* The bytes of stack that a call used, the thread's own among them. */
static size_t used_by(void (*made)(int), int sets) {
    struct call call = {made, sets};
    void *lent = NULL;
    pthread_attr_t attributes;
    pthread_t thread;
    if (posix_memalign(&lent, 65536, PAINTED) != 0)
        exit(2);
    unsigned char *stack = (unsigned char *)lent;
    memset(stack, PAINT, PAINTED);
    if (pthread_attr_init(&attributes) != 0 || pthread_attr_setstack(&attributes, stack, PAINTED) != 0 ||
        pthread_create(&thread, &attributes, make, &call) != 0 || pthread_join(thread, NULL) != 0)
        exit(2);
    pthread_attr_destroy(&attributes);
    /* The paint that is left: a page byte by byte, then by pages that are as the first. */
    size_t left = 0;
    while (left < PAGE && stack[left] == PAINT)
        left++;
    while (left >= PAGE && left < PAINTED && memcmp(stack + left, stack, PAGE) == 0)
        left += PAGE;
    while (left < PAINTED && stack[left] == PAINT)
        left++;
    free(stack);
    return PAINTED - left;
}

int main(void) {
    static const struct {
        const char *name;
        void (*made)(int);
    } calls[] = {{"nothing", none}, {"equal", equal}, {"solves", solves}, {"solves, plainly", solves_plainly}, {"write and read a question", write_and_read}, {"write a list", write_list}, {"run", run}};
    int above = 0;
    for (size_t i = 0; i < sizeof calls / sizeof calls[0]; i++)
        for (int sets = 0; sets <= 1; sets++) {
            size_t used = used_by(calls[i].made, sets);
            printf("%s, nested %s: status %u, %zu bytes\n", calls[i].name, sets ? "sets" : "functors", (unsigned)status, used);
            above += status != MENSORIQUE_GRANTED || used > MENSORIQUE_STACK;
        }
    return above > 0;
}

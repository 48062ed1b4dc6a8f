/* The calls of mensorique_call.h, over functions that note what they were given in place of the archive's. Each field arrives as the argument that has its
 * name, and each out number as its field; every two buffers, in every position to each other, are refused where they overlap and one is written, with
 * nothing called and nothing changed, and lent on otherwise. In what C99 and C++11 have in common. */
#include "mensorique_print.h"

#include "noting.h"

#include <stdio.h>

static int faults;
#define CHECK(told) ((told) ? (void)0 : (void)(faults++, printf("%s:%d: not so: %s\n", __FILE__, __LINE__, #told)))

/* ---- The calls, each by its buffers */

enum { READ_QUESTION, WRITE_QUESTION, WRITE_ANSWERS, EQUAL, SOLVES, RUN, CALLS };
enum { UNKNOWNS = 21, EQUATIONS, STEPS, DEPTH, SIZE, VISITED, COUNT, MOST_BUFFERS = 4 };

/* How many buffers a call has; the bytes of an element of each, and whether it is written. */
static const struct {
    size_t buffers;
    size_t each[MOST_BUFFERS];
    int written[MOST_BUFFERS];
} shapes[CALLS] = {
    {3, {1, 1, 2, 0}, {0, 1, 1, 0}}, /* text, arities, words */
    {3, {1, 2, 1, 0}, {0, 0, 1, 0}}, /* arities, words, text */
    {3, {1, 2, 1, 0}, {0, 0, 1, 0}}, /* arities, words, text */
    {2, {1, 2, 0, 0}, {0, 0, 0, 0}}, /* arities, words */
    {3, {1, 2, 2, 0}, {0, 0, 0, 0}}, /* arities, words, values */
    {4, {1, 2, 2, 2}, {0, 0, 1, 1}}, /* arities, words, answers, room */
};

struct buffer {
    void *at;
    size_t length;
};

static struct mensorique_question question_of(struct buffer arities, struct buffer words) {
    struct mensorique_question question;
    question.unknowns = UNKNOWNS;
    question.arities = (const uint8_t *)arities.at;
    question.arities_length = arities.length;
    question.equations = EQUATIONS;
    question.words = (const uint16_t *)words.at;
    question.words_length = words.length;
    return question;
}

static struct mensorique_text_loan text_loan_of(struct buffer text) {
    struct mensorique_text_loan loan;
    loan.text = (char *)text.at;
    loan.text_length = text.length;
    return loan;
}

static struct mensorique_run_loan run_loan_of(struct buffer answers, struct buffer room) {
    struct mensorique_run_loan loan;
    loan.steps = STEPS;
    loan.depth = DEPTH;
    loan.size = SIZE;
    loan.answers = (uint16_t *)answers.at;
    loan.answers_length = answers.length;
    loan.room = (struct mensorique_room_word *)room.at;
    loan.room_length = room.length;
    return loan;
}

/* Was the last call given these? Buffers stand as their address and length. */
static void arrived(const uintptr_t *wanted, size_t length) { CHECK(called == 1 && many == length && memcmp(given, wanted, sizeof *given * many) == 0); }
#define ARRIVED(wanted) arrived(wanted, MENSORIQUE_LENGTH(wanted))
#define BUFFER(k) (uintptr_t)lent[k].at, lent[k].length

/* What every call does with a status and a place. */
static void passed_on(uint32_t status, size_t place) {
    CHECK(called == 0 || status == answer_with);
    CHECK(place == (called == 1 && status != MENSORIQUE_GRANTED ? 77u : 0u));
}

static uint32_t read_question(const struct buffer *lent) {
    const uintptr_t wanted[] = {BUFFER(0), BUFFER(1), BUFFER(2)};
    struct mensorique_text text;
    struct mensorique_read_loan loan;
    struct mensorique_read read;
    text.text = (const char *)lent[0].at;
    text.text_length = lent[0].length;
    loan.arities = (uint8_t *)lent[1].at;
    loan.arities_length = lent[1].length;
    loan.words = (uint16_t *)lent[2].at;
    loan.words_length = lent[2].length;
    read = mensorique_call_read_question(text, loan);
    if (called > 0)
        ARRIVED(wanted);
    passed_on(read.status, read.place);
    CHECK(read.question.arities == loan.arities && read.question.words == loan.words);
    if (read.status == MENSORIQUE_GRANTED)
        CHECK(read.question.unknowns == 11 && read.question.arities_length == 12 && read.question.equations == 13 && read.question.words_length == 14);
    else
        CHECK(read.question.unknowns > MENSORIQUE_MOST_UNKNOWNS && read.question.arities_length == 0 && read.question.words_length == 0);
    return read.status;
}

static uint32_t write_question(const struct buffer *lent) {
    const uintptr_t wanted[] = {UNKNOWNS, BUFFER(0), EQUATIONS, BUFFER(1), BUFFER(2)};
    struct mensorique_written written = mensorique_call_write_question(question_of(lent[0], lent[1]), text_loan_of(lent[2]));
    if (called > 0)
        ARRIVED(wanted);
    passed_on(written.status, written.place);
    CHECK(written.length == (written.status == MENSORIQUE_GRANTED ? 15u : 0u));
    return written.status;
}

static uint32_t write_answers(const struct buffer *lent) {
    const uintptr_t wanted[] = {BUFFER(0), MENSORIQUE_END_SPACE, VISITED, COUNT, BUFFER(1), BUFFER(2)};
    struct mensorique_written written;
    struct mensorique_list list;
    list.end = MENSORIQUE_END_SPACE;
    list.visited = VISITED;
    list.count = COUNT;
    list.arities = (const uint8_t *)lent[0].at;
    list.arities_length = lent[0].length;
    list.words = (const uint16_t *)lent[1].at;
    list.words_length = lent[1].length;
    written = mensorique_call_write_answers(list, text_loan_of(lent[2]));
    if (called > 0)
        ARRIVED(wanted);
    passed_on(written.status, written.place);
    CHECK(written.length == (written.status == MENSORIQUE_GRANTED ? 16u : 0u));
    return written.status;
}

static uint32_t equal(const struct buffer *lent) {
    const uintptr_t wanted[] = {BUFFER(0), BUFFER(1)};
    struct mensorique_judged judged = mensorique_call_equal(mensorique_question_terms(question_of(lent[0], lent[1])));
    if (called > 0)
        ARRIVED(wanted);
    passed_on(judged.status, judged.place);
    CHECK(judged.verdict == (judged.status == MENSORIQUE_GRANTED ? MENSORIQUE_YES : MENSORIQUE_NOT_TOLD));
    return judged.status;
}

static uint32_t solves(const struct buffer *lent) {
    const uintptr_t wanted[] = {UNKNOWNS, BUFFER(0), EQUATIONS, BUFFER(1), BUFFER(2)};
    struct mensorique_judged judged;
    struct mensorique_values values;
    values.words = (const uint16_t *)lent[2].at;
    values.words_length = lent[2].length;
    judged = mensorique_call_solves(question_of(lent[0], lent[1]), values);
    if (called > 0)
        ARRIVED(wanted);
    passed_on(judged.status, judged.place);
    CHECK(judged.verdict == (judged.status == MENSORIQUE_GRANTED ? MENSORIQUE_NO : MENSORIQUE_NOT_TOLD));
    return judged.status;
}

static uint32_t run(const struct buffer *lent) {
    const uintptr_t wanted[] = {UNKNOWNS, BUFFER(0), EQUATIONS, BUFFER(1), STEPS, DEPTH, SIZE, BUFFER(2), BUFFER(3)};
    struct mensorique_ran ran = mensorique_call_run(question_of(lent[0], lent[1]), run_loan_of(lent[2], lent[3]));
    if (called > 0)
        ARRIVED(wanted);
    passed_on(ran.status, ran.place);
    CHECK(ran.list.arities == lent[0].at && ran.list.arities_length == lent[0].length && ran.list.words == lent[2].at);
    if (ran.status == MENSORIQUE_GRANTED)
        CHECK(ran.list.end == MENSORIQUE_END_SIZE && ran.list.visited == 17 && ran.list.count == 18 && ran.list.words_length == 19);
    else
        CHECK(ran.list.end == MENSORIQUE_NOT_TOLD && ran.list.visited == 0 && ran.list.count == 0 && ran.list.words_length == 0);
    return ran.status;
}

static uint32_t (*const calls[CALLS])(const struct buffer *) = {read_question, write_question, write_answers, equal, solves, run};

/* ---- Buffers in every position */

enum { LENGTH = 5, APART = 64 };
static uint16_t memory[APART * (MOST_BUFFERS + 1)];

/* Lends a call these buffers. Does it answer so, and call only where it may? Nothing is changed in memory, our functions write none of it. */
static void lend(int call, const struct buffer *lent, uint32_t wanted) {
    size_t i;
    for (i = 0; i < MENSORIQUE_LENGTH(memory); i++)
        memory[i] = (uint16_t)(i * 7919);
    expect(wanted < MENSORIQUE_REFUSED_OVERLAP ? wanted : MENSORIQUE_GRANTED);
    CHECK(calls[call](lent) == wanted);
    CHECK(called == (wanted < MENSORIQUE_REFUSED_OVERLAP));
    for (i = 0; i < MENSORIQUE_LENGTH(memory); i++)
        CHECK(memory[i] == (uint16_t)(i * 7919));
}

/* Buffers of so many elements that are apart from each other. */
static void lay_apart(struct buffer *lent, size_t length) {
    size_t k;
    for (k = 0; k < MOST_BUFFERS; k++) {
        lent[k].at = memory + APART / 2 + APART * k;
        lent[k].length = length;
    }
}

/* Every buffer `moved` at every distance from every other, up to where they are apart on either side. */
static int positions(int call, size_t fixed, size_t moved) {
    const int fixed_bytes = (int)(LENGTH * shapes[call].each[fixed]), moved_bytes = (int)(LENGTH * shapes[call].each[moved]);
    const int step = (int)shapes[call].each[moved], written = shapes[call].written[fixed] || shapes[call].written[moved];
    int distance, tried = 0;
    for (distance = -moved_bytes - step; distance <= fixed_bytes + step; distance += step) {
        struct buffer lent[MOST_BUFFERS];
        const int overlap = -moved_bytes < distance && distance < fixed_bytes;
        lay_apart(lent, LENGTH);
        lent[moved].at = (unsigned char *)lent[fixed].at + distance;
        lend(call, lent, overlap && written ? MENSORIQUE_REFUSED_OVERLAP : MENSORIQUE_GRANTED);
        /* Without elements it overlaps nothing, nor does anything overlap it. */
        lent[moved].length = 0;
        lend(call, lent, MENSORIQUE_GRANTED);
        tried++;
    }
    return tried;
}

static void buffers(void) {
    int call, tried = 0;
    size_t i, j;
    for (call = 0; call < CALLS; call++) {
        struct buffer lent[MOST_BUFFERS];
        uint32_t status;
        for (status = MENSORIQUE_GRANTED; status <= MENSORIQUE_REFUSED_WORDS; status++) {
            lay_apart(lent, LENGTH);
            lend(call, lent, status);
        }
        /* NULL without elements is an empty buffer, and with some it is refused. */
        for (i = 0; i < MOST_BUFFERS; i++)
            lent[i].at = NULL, lent[i].length = 0;
        lend(call, lent, MENSORIQUE_GRANTED);
        for (i = 0; i < shapes[call].buffers; i++) {
            lay_apart(lent, LENGTH);
            lent[i].at = NULL;
            lend(call, lent, MENSORIQUE_REFUSED_NULL);
            for (j = 0; j < shapes[call].buffers; j++)
                if (i != j)
                    tried += positions(call, i, j);
        }
    }
    printf("%d positions of two buffers\n", tried);
}

/* Lengths whose bytes no number can count reach to the last address, and not round it. */
static void without_end(void) {
    struct mensorique_range all = mensorique_range_of(memory + 1, SIZE_MAX, sizeof *memory, 1);
    CHECK(all.bytes == SIZE_MAX);
    CHECK(!mensorique_ranges_overlap(all, mensorique_range_of(memory, 1, sizeof *memory, 0)));
    CHECK(mensorique_ranges_overlap(all, mensorique_range_of(memory, 2, sizeof *memory, 0)));
    CHECK(mensorique_ranges_overlap(mensorique_range_of(memory + 9, 1, 1, 0), all));
}

/* ---- Words and texts */

/* A running number of any type makes a word without a warning, in braces too. */
static void words(void) {
    int i;
    for (i = 0; i < 3; i++) {
        const size_t wide = (size_t)i;
        const unsigned char narrow = (unsigned char)i;
        const long distant = i;
        const uint16_t unknowns[] = {MENSORIQUE_UNKNOWN(i), MENSORIQUE_UNKNOWN(wide), MENSORIQUE_UNKNOWN(narrow), MENSORIQUE_UNKNOWN(distant)};
        const uint16_t functors[] = {MENSORIQUE_FUNCTOR(i), MENSORIQUE_FUNCTOR(wide), MENSORIQUE_FUNCTOR(narrow), MENSORIQUE_FUNCTOR(distant)};
        size_t k;
        for (k = 0; k < MENSORIQUE_LENGTH(unknowns); k++)
            CHECK(unknowns[k] == 1000 + i && functors[k] == 2000 + i);
        CHECK(sizeof MENSORIQUE_UNKNOWN(i) == 2 && sizeof MENSORIQUE_FUNCTOR(i) == 2 && sizeof MENSORIQUE_EMPTY == 2 && sizeof MENSORIQUE_WITH == 2);
    }
    CHECK(MENSORIQUE_EMPTY == 0 && MENSORIQUE_WITH == 1);
}

static void texts(void) {
    static const struct {
        uint32_t end;
        const char *text;
    } ends[] = {{MENSORIQUE_END_DONE, "done"}, {MENSORIQUE_END_STEPS, "steps"}, {MENSORIQUE_END_DEPTH, "depth"},   {MENSORIQUE_END_SIZE, "size"},
                {MENSORIQUE_END_SPACE, "space"}, {MENSORIQUE_END_NAMES, "names"}, {MENSORIQUE_NOT_TOLD, "not told"}};
    uint32_t status, told = 0;
    char version[32];
    size_t i;
    for (i = 0; i < MENSORIQUE_LENGTH(ends); i++)
        CHECK(strcmp(mensorique_end_text(ends[i].end), ends[i].text) == 0);
    for (status = 0; status < 1000; status++) {
        const int known = strcmp(mensorique_status_text(status), "no such status") != 0;
        CHECK(known == (status <= MENSORIQUE_REFUSED_WORDS || status == MENSORIQUE_REFUSED_OVERLAP || status == MENSORIQUE_REFUSED_NULL));
        told += (uint32_t)(strcmp(mensorique_end_text(status), "no such end") != 0);
    }
    CHECK(told == MENSORIQUE_LENGTH(ends));
    CHECK(MENSORIQUE_REFUSED_OVERLAP == 100 && MENSORIQUE_REFUSED_NULL == 101 && MENSORIQUE_NOT_TOLD == 102);
    snprintf(version, sizeof version, "%d.%d.%d", MENSORIQUE_VERSION_MAJOR, MENSORIQUE_VERSION_MINOR, MENSORIQUE_VERSION_PATCH);
    CHECK(strcmp(version, MENSORIQUE_VERSION) == 0 && strcmp(mensorique_version(), MENSORIQUE_VERSION) == 0);
}

int main(void) {
    struct buffer none = {NULL, 0};
    buffers();
    without_end();
    words();
    texts();
    CHECK(mensorique_call_room_words(run_loan_of(none, none)) == 1000 * DEPTH + SIZE);
    return faults > 0;
}

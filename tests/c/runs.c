/* Runs through mensorique_call.h and the archive: loans that are just enough and one short, answers with their bindings put in held to the archive's own test
 * of values, a room that holds its question, and texts. In what C99 and C++11 have in common. */
#include "check.h"

enum { SPACE = 4096 };
static uint16_t answers[SPACE], filled[SPACE];
static struct mensorique_room_word room[MENSORIQUE_ROOM_WORDS(32, 128)];
static char text[SPACE];

static struct mensorique_question question_of(size_t unknowns, const uint16_t *words, size_t length) {
    struct mensorique_question question;
    question.unknowns = unknowns;
    question.arities = arities;
    question.arities_length = MENSORIQUE_LENGTH(arities);
    question.equations = 1;
    question.words = words;
    question.words_length = length;
    return question;
}

static struct mensorique_run_loan loan_of(uint64_t steps, size_t depth, size_t size, size_t answers_length) {
    struct mensorique_run_loan loan;
    loan.steps = steps;
    loan.depth = depth;
    loan.size = size;
    loan.answers = answers;
    loan.answers_length = answers_length;
    loan.room = room;
    loan.room_length = MENSORIQUE_LENGTH(room);
    return loan;
}

/* x0 = {a|x0}: three steps, depth 2, size 4 and five words are just enough, and each one short has an end of its own. */
static void loans(void) {
    static const uint16_t words[] = {X(0), WITH, F(0), X(0)};
    static const struct {
        size_t steps, depth, size, space;
        uint32_t end;
        uint64_t visited;
    } cases[] = {{3, 2, 4, 5, MENSORIQUE_END_DONE, 3},  {2, 2, 4, 5, MENSORIQUE_END_STEPS, 2}, {3, 1, 4, 5, MENSORIQUE_END_DEPTH, 2},
                 {3, 2, 3, 5, MENSORIQUE_END_SIZE, 0}, {3, 2, 4, 4, MENSORIQUE_END_SPACE, 3}};
    size_t i;
    for (i = 0; i < MENSORIQUE_LENGTH(cases); i++) {
        struct mensorique_ran ran =
            mensorique_call_run(question_of(1, words, 4), loan_of(cases[i].steps, cases[i].depth, cases[i].size, cases[i].space));
        CHECK(ran.status == MENSORIQUE_GRANTED && ran.list.end == cases[i].end && ran.list.visited == cases[i].visited);
        CHECK(ran.list.count == (i == 0) && ran.list.words_length == (i == 0 ? 5 : 0));
    }
}

/* {x0,x1,x2|x3} = {a,b,c} has 168 answers. Each, with its bindings put in and what is open then made the empty set, solves the question. With its words at the
 * room's start it is refused, and nothing is written. */
static const uint16_t wide[] = {WITH, X(0), WITH, X(1), WITH, X(2), X(3), WITH, F(0), WITH, F(1), WITH, F(2), EMPTY};

static void values_solve(void) {
    const struct mensorique_question question = question_of(4, wide, MENSORIQUE_LENGTH(wide));
    const struct mensorique_ran ran = mensorique_call_run(question, loan_of(100000, 32, 128, SPACE));
    struct mensorique_answer answer;
    uint64_t number = 0;
    CHECK(ran.status == MENSORIQUE_GRANTED && ran.list.end == MENSORIQUE_END_DONE && ran.list.count == 168 && ran.list.visited == 9154);
    for (answer = mensorique_first_answer(ran.list); answer.found == MENSORIQUE_HERE; answer = mensorique_next_answer(answer)) {
        struct mensorique_values values;
        struct mensorique_judged judged;
        size_t unknown, i;
        values.words = filled;
        values.words_length = 0;
        for (unknown = 0; unknown < question.unknowns; unknown++) {
            const struct mensorique_filled value = mensorique_value(answer, unknown, filled + values.words_length, SPACE - values.words_length);
            CHECK(value.status == MENSORIQUE_GRANTED && mensorique_term_end(value.terms) == value.terms.words_length);
            values.words_length += value.terms.words_length;
        }
        for (i = 0; i < values.words_length; i++)
            if (mensorique_unknown_of(filled[i]) < MENSORIQUE_MOST_PATH_UNKNOWNS)
                filled[i] = EMPTY;
        judged = mensorique_call_solves(question, values);
        CHECK(judged.status == MENSORIQUE_GRANTED && judged.verdict == MENSORIQUE_YES);
        CHECK(answer.number == number++);
    }
    CHECK(answer.found == MENSORIQUE_NO_MORE && number == 168);
}

static void room_holds_question(void) {
    struct mensorique_run_loan loan = loan_of(100000, 32, 128, SPACE);
    struct mensorique_ran ran;
    size_t i;
    memset(answers, 77, sizeof answers);
    memset(room, 77, sizeof room);
    memcpy(room, wide, sizeof wide);
    ran = mensorique_call_run(question_of(4, (const uint16_t *)(void *)room, MENSORIQUE_LENGTH(wide)), loan);
    CHECK(ran.status == MENSORIQUE_REFUSED_OVERLAP && ran.list.end == MENSORIQUE_NOT_TOLD && ran.list.count == 0);
    CHECK(mensorique_first_answer(ran.list).found == MENSORIQUE_NO_MORE);
    loan.room = (struct mensorique_room_word *)(void *)(answers + SPACE - 1);
    ran = mensorique_call_run(question_of(4, wide, MENSORIQUE_LENGTH(wide)), loan);
    CHECK(ran.status == MENSORIQUE_REFUSED_OVERLAP);
    for (i = 0; i < SPACE; i++)
        CHECK(answers[i] == 77 * 257);
    for (i = 0; i < MENSORIQUE_LENGTH(room); i++)
        CHECK(room[i].held == (i < MENSORIQUE_LENGTH(wide) ? wide[i] : 77 * 257));
}

/* A text that is read gives a question that can be asked; one that is refused gives a question that is refused. */
static void texts(void) {
    static const char lines[] = "edition=1\nunknowns=1\narities=0\nequations=1\nleft=x0\nright={f0|x0}\n";
    uint8_t read_arities[4];
    uint16_t words[8];
    struct mensorique_read_loan into;
    struct mensorique_text_loan page;
    struct mensorique_read read;
    struct mensorique_ran ran;
    struct mensorique_written written;
    into.arities = read_arities;
    into.arities_length = MENSORIQUE_LENGTH(read_arities);
    into.words = words;
    into.words_length = MENSORIQUE_LENGTH(words);
    page.text = text;
    page.text_length = sizeof text;
    read = mensorique_call_read_question(mensorique_text_of(lines), into);
    CHECK(read.status == MENSORIQUE_GRANTED);
    written = mensorique_call_write_question(read.question, page);
    CHECK(written.status == MENSORIQUE_GRANTED && written.length == strlen(lines) && memcmp(text, lines, written.length) == 0);
    ran = mensorique_call_run(read.question, loan_of(100, 32, 128, SPACE));
    CHECK(ran.status == MENSORIQUE_GRANTED && ran.list.count == 1);
    CHECK(prints(mensorique_first_binding(mensorique_first_answer(ran.list)).value, "{f0|x1}"));
    page.text_length = 0;
    written = mensorique_call_write_answers(ran.list, page);
    CHECK(written.status == MENSORIQUE_REFUSED_BUFFER && written.length == 0 && written.place > 0);
    read = mensorique_call_read_question(mensorique_text_of("edition=2\n"), into);
    CHECK(read.status == MENSORIQUE_REFUSED_LIMIT && read.place == 8);
    CHECK(mensorique_call_run(read.question, loan_of(100, 32, 128, SPACE)).status == MENSORIQUE_REFUSED_LIMIT);
}

int main(void) {
    loans();
    values_solve();
    room_holds_question();
    texts();
    return faults > 0;
}

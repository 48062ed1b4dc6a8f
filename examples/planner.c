/* A planner's question, asked from C. Two groups of courses, each with something open, are to be the same set:
 *     {algebra,x0,lab(x1)} = {geometry,lab(logic)|x2}
 * Which course takes the open place x0, whose laboratory is it, and what may the rest x2 hold? */
#include "mensorique_print.h"

#include <inttypes.h>
#include <stdio.h>

enum { ALGEBRA, GEOMETRY, LOGIC, LAB, COURSES };

static const char *const courses[COURSES] = {"algebra", "geometry", "logic", "lab"};
static const uint8_t arities[COURSES] = {0, 0, 0, 1};

#define F(k) MENSORIQUE_FUNCTOR(k)
#define X(i) MENSORIQUE_UNKNOWN(i)
#define WITH MENSORIQUE_WITH
#define EMPTY MENSORIQUE_EMPTY

static const uint16_t words[] = {
    WITH, F(ALGEBRA), WITH, X(0), WITH, F(LAB), X(1), EMPTY, /* {algebra,x0,lab(x1)} */
    WITH, F(GEOMETRY), WITH, F(LAB), F(LOGIC), X(2),         /* {geometry,lab(logic)|x2} */
};

static const struct mensorique_question question = {
    .unknowns = 3,
    .arities = arities,
    .arities_length = COURSES,
    .equations = 1,
    .words = words,
    .words_length = MENSORIQUE_LENGTH(words),
};

/* The room and the words for answers are ours: static here, one of each for every run that goes on at the same time. */
static struct mensorique_room_word room[MENSORIQUE_ROOM_WORDS(32, 128)];
static uint16_t answers[1024];

/* Prints a term with the courses' names. */
static void put(struct mensorique_terms term) {
    static const struct mensorique_names names = {.functors = courses, .functors_length = COURSES, .unknowns = NULL, .unknowns_length = 0};
    char text[256];
    fputs(mensorique_print(text, sizeof text, term, names) < sizeof text ? text : "(too long)", stdout);
}

/* Prints the answers, each as the values of the question's unknowns and the group that they give. */
static void put_answers(struct mensorique_list list) {
    const struct mensorique_terms group = mensorique_first_term(mensorique_question_terms(question));
    struct mensorique_answer answer;
    uint16_t filled[256];
    for (answer = mensorique_first_answer(list); answer.found == MENSORIQUE_HERE; answer = mensorique_next_answer(answer)) {
        printf("%" PRIu64 ":", answer.number + 1);
        for (size_t unknown = 0; unknown < question.unknowns; unknown++) {
            printf(" x%zu=", unknown);
            put(mensorique_value(answer, unknown, filled, MENSORIQUE_LENGTH(filled)).terms);
        }
        printf(" group=");
        put(mensorique_fill(answer, group, filled, MENSORIQUE_LENGTH(filled)).terms);
        putchar('\n');
    }
}

int main(void) {
    struct mensorique_run_loan loan = {
        .steps = 500,
        .depth = 32,
        .size = 128,
        .answers = answers,
        .answers_length = MENSORIQUE_LENGTH(answers),
        .room = room,
        .room_length = MENSORIQUE_LENGTH(room),
    };
    printf("asked: ");
    put(mensorique_question_terms(question));
    printf(" = ");
    put(mensorique_after_term(mensorique_question_terms(question)));
    putchar('\n');

    /* Few steps first, then more: what was listed stays as it was, and only `done` is final. */
    for (; loan.steps <= 5000000; loan.steps *= 100) {
        struct mensorique_ran ran = mensorique_call_run(question, loan);
        if (ran.status != MENSORIQUE_GRANTED) {
            printf("refused=%" PRIu32 " place=%zu: %s\n", ran.status, ran.place, mensorique_status_text(ran.status));
            return 1;
        }
        printf("steps %" PRIu64 ": %s, visited %" PRIu64 ", answers %" PRIu64 "\n", loan.steps, mensorique_end_text(ran.list.end), ran.list.visited,
               ran.list.count);
        put_answers(ran.list);
        if (ran.list.end == MENSORIQUE_END_DONE) {
            puts("these are all");
            return 0;
        }
        puts("there may be more");
        if (ran.list.end != MENSORIQUE_END_STEPS)
            break;
    }
    return 0;
}

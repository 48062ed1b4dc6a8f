/* One thing lent for another is no program. With SWAP 0 this is one; with each other number one line of it has something of another kind, and the compiler must
 * refuse it, by what it tells without being asked for warnings. tests/c-matrix tries each; in what C99 and C++11 have in common. From 101 on it is numbers
 * without names, which gcc refuses in C. */
#include "mensorique_print.h"

#if SWAP == 1
#define RUN mensorique_call_run(loan, question)
#elif SWAP == 2
#define RUN mensorique_call_run(list, loan)
#else
#define RUN mensorique_call_run(question, loan)
#endif

#if SWAP == 3
#define ANSWERS room
#elif SWAP == 4
#define ANSWERS words
#elif SWAP == 5
#define ANSWERS arities
#else
#define ANSWERS answers
#endif

#if SWAP == 6
#define ROOM answers
#elif SWAP == 7
#define ROOM room_length
#else
#define ROOM room
#endif

#if SWAP == 8
#define ROOM_LENGTH room
#else
#define ROOM_LENGTH room_length
#endif

#if SWAP == 9
#define WORDS arities
#elif SWAP == 10
#define WORDS room
#else
#define WORDS words
#endif

#if SWAP == 11
#define READ mensorique_call_read_question(page, into)
#elif SWAP == 12
#define READ mensorique_call_read_question(into, text)
#elif SWAP == 13
#define READ mensorique_call_read_question(text, loan)
#else
#define READ mensorique_call_read_question(text, into)
#endif

#if SWAP == 14
#define WRITE_QUESTION mensorique_call_write_question(list, page)
#elif SWAP == 15
#define WRITE_QUESTION mensorique_call_write_question(question, text)
#else
#define WRITE_QUESTION mensorique_call_write_question(question, page)
#endif

#if SWAP == 16
#define WRITE_ANSWERS mensorique_call_write_answers(question, page)
#elif SWAP == 17
#define WRITE_ANSWERS mensorique_call_write_answers(ran, page)
#else
#define WRITE_ANSWERS mensorique_call_write_answers(list, page)
#endif

#if SWAP == 18
#define EQUAL mensorique_call_equal(values)
#elif SWAP == 19
#define EQUAL mensorique_call_equal(question)
#else
#define EQUAL mensorique_call_equal(terms)
#endif

#if SWAP == 20
#define SOLVES mensorique_call_solves(values, question)
#elif SWAP == 21
#define SOLVES mensorique_call_solves(question, terms)
#else
#define SOLVES mensorique_call_solves(question, values)
#endif

#if SWAP == 22
#define FILL mensorique_fill(terms, answer, answers, 1)
#elif SWAP == 23
#define FILL mensorique_fill(answer, terms, room, 1)
#elif SWAP == 24
#define FILL mensorique_fill(list, terms, answers, 1)
#else
#define FILL mensorique_fill(answer, terms, answers, 1)
#endif

#if SWAP == 25
#define NEXT mensorique_next_binding(answer)
#elif SWAP == 26
#define NEXT mensorique_next_answer(list)
#else
#define NEXT mensorique_next_answer(answer)
#endif

void lend(struct mensorique_question question, struct mensorique_run_loan loan, struct mensorique_text text, struct mensorique_read_loan into,
          struct mensorique_text_loan page, struct mensorique_terms terms, struct mensorique_values values);
void lend(struct mensorique_question question, struct mensorique_run_loan loan, struct mensorique_text text, struct mensorique_read_loan into,
          struct mensorique_text_loan page, struct mensorique_terms terms, struct mensorique_values values) {
    static const uint8_t arities[] = {0};
    static const uint16_t words[] = {MENSORIQUE_EMPTY, MENSORIQUE_EMPTY};
    static uint16_t answers[1];
    static struct mensorique_room_word room[MENSORIQUE_ROOM_WORDS(1, 1)];
    const size_t room_length = MENSORIQUE_LENGTH(room);
    struct mensorique_ran ran;
    struct mensorique_list list;
    struct mensorique_answer answer;
#if SWAP == 101
    struct mensorique_run_loan positional = {1, 2, 3, answers, 1, room, room_length};
    loan = positional;
#elif SWAP == 102
    struct mensorique_question positional = {0, arities, 1, 1, words, 2};
    question = positional;
#endif
    question.arities = arities;
    question.words = WORDS;
    loan.answers = ANSWERS;
    loan.room = ROOM;
    loan.room_length = ROOM_LENGTH;
    ran = mensorique_call_run(question, loan);
    list = ran.list;
    ran = RUN;
    answer = mensorique_first_answer(list);
    answer = NEXT;
    (void)answer;
    (void)READ;
    (void)WRITE_QUESTION;
    (void)WRITE_ANSWERS;
    (void)EQUAL;
    (void)SOLVES;
    (void)FILL;
}

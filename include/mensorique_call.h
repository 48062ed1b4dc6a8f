/* Mensorique: the functions of mensorique.h, called with named fields.
 *
 * mensorique.h is the reference. A question, what is lent and what comes back are structs here, whose fields have the names of that header's arguments and mean
 * what it says of them; a function mensorique_call_NAME takes them and calls mensorique_NAME. All is static inline, in C99 and C++11, and nothing is
 * allocated. mensorique_list.h goes through what a run listed, and mensorique_print.h shows it to people; each includes the one before.
 *
 * FIELDS. In C, and in C++ from C++20 on, a struct is filled by its fields' names, in their order: {.unknowns = 1, .arities = arities, ..}. In C++ before that
 * it is declared with {} and its fields are assigned. A field that is left out is 0. Where a struct has several numbers, gcc warns in C of braces without
 * names.
 *
 * WHAT COMES BACK is a struct, its status first. Where that is not MENSORIQUE_GRANTED, `place` says where, and the rest is such that nobody takes it for a
 * result: an end or a verdict is MENSORIQUE_NOT_TOLD, lengths and counts are 0, and a question is one that every function refuses.
 *
 * OVERLAP. Before anything is called, the ranges of addresses that are lent are compared. Where a buffer that is written overlaps another, the status is
 * MENSORIQUE_REFUSED_OVERLAP; where a pointer is NULL beside a length that is not 0, it is MENSORIQUE_REFUSED_NULL; the place is 0, nothing is called, and
 * every buffer is untouched. Buffers that are only read may overlap each other, and a length of 0 overlaps nothing.
 */
#ifndef MENSORIQUE_CALL_H
#define MENSORIQUE_CALL_H

#include "mensorique.h"

#include <string.h>

/* Statuses of this header, which no function of the archive has. */
#define MENSORIQUE_REFUSED_OVERLAP 100u
#define MENSORIQUE_REFUSED_NULL    101u

/* Stands for an end or a verdict where the call was refused: neither done nor any other end, neither yes nor no. */
#define MENSORIQUE_NOT_TOLD 102u

/* Verdicts. */
#define MENSORIQUE_NO  0u
#define MENSORIQUE_YES 1u

/* The count of an array's elements; for an array, not for a pointer. */
#define MENSORIQUE_LENGTH(array) (sizeof(array) / sizeof *(array))

/* A struct whose fields are to be named in braces. */
#ifdef __has_attribute
#if __has_attribute(designated_init) && !defined(__cplusplus)
#define MENSORIQUE_BY_NAME __attribute__((designated_init))
#endif
#endif
#ifndef MENSORIQUE_BY_NAME
#define MENSORIQUE_BY_NAME
#endif

/* ---- What is lent */

struct MENSORIQUE_BY_NAME mensorique_question {
    size_t unknowns;
    const uint8_t *arities;
    size_t arities_length;
    size_t equations;
    const uint16_t *words;
    size_t words_length;
};

/* A word of a run's room. It has a type of its own, so that no compiler takes words that mean something for room, or room for answers. */
struct mensorique_room_word {
    uint16_t held;
};
typedef char mensorique_room_word_is_one_word[sizeof(struct mensorique_room_word) == sizeof(uint16_t) ? 1 : -1];

/* To a run: its limits, words for the answers, and room, of which MENSORIQUE_ROOM_WORDS(depth, size) are enough. */
struct MENSORIQUE_BY_NAME mensorique_run_loan {
    uint64_t steps;
    size_t depth;
    size_t size;
    uint16_t *answers;
    size_t answers_length;
    struct mensorique_room_word *room;
    size_t room_length;
};

/* To the reader: what it writes to. */
struct mensorique_read_loan {
    uint8_t *arities;
    size_t arities_length;
    uint16_t *words;
    size_t words_length;
};

/* To a writer: what it writes to. */
struct mensorique_text_loan {
    char *text;
    size_t text_length;
};

/* A text that is read. */
struct mensorique_text {
    const char *text;
    size_t text_length;
};

/* Terms in words, one after another, and the arities of the functors in them. */
struct mensorique_terms {
    const uint8_t *arities;
    size_t arities_length;
    const uint16_t *words;
    size_t words_length;
};

/* Values of a question's unknowns: one ground term for each, in order. */
struct mensorique_values {
    const uint16_t *words;
    size_t words_length;
};

/* ---- What comes back */

/* A list of answers: how its run ended, how many nodes were visited, how many answers there are, and their words. */
struct MENSORIQUE_BY_NAME mensorique_list {
    uint32_t end;
    uint64_t visited;
    uint64_t count;
    const uint8_t *arities;
    size_t arities_length;
    const uint16_t *words;
    size_t words_length;
};

/* Of a run. The list's words stand in the lent ones, and its arities are the question's. */
struct mensorique_ran {
    uint32_t status;
    size_t place;
    struct mensorique_list list;
};

/* Of reading. The question stands in what was lent. */
struct mensorique_read {
    uint32_t status;
    size_t place;
    struct mensorique_question question;
};

/* Of writing: how many bytes were written. For MENSORIQUE_REFUSED_BUFFER the place is how many it takes. */
struct mensorique_written {
    uint32_t status;
    size_t place;
    size_t length;
};

/* Of a test: MENSORIQUE_YES, MENSORIQUE_NO, or MENSORIQUE_NOT_TOLD. */
struct mensorique_judged {
    uint32_t status;
    size_t place;
    uint32_t verdict;
};

/* A string's bytes, its NUL not among them. */
static inline struct mensorique_text mensorique_text_of(const char *string) {
    struct mensorique_text text;
    text.text = string;
    text.text_length = strlen(string);
    return text;
}

/* ---- Ranges of addresses */

struct mensorique_range {
    const void *at;
    size_t bytes;
    int written;
};

/* The range of so many elements of so many bytes each. */
static inline struct mensorique_range mensorique_range_of(const void *at, size_t length, size_t each, int written) {
    struct mensorique_range range;
    range.at = at;
    range.bytes = length > SIZE_MAX / each ? SIZE_MAX : length * each;
    range.written = written;
    return range;
}

/* Do two ranges share a byte? The sums that could pass the last address are not made. */
static inline int mensorique_ranges_overlap(struct mensorique_range one, struct mensorique_range other) {
    uintptr_t a = (uintptr_t)one.at, b = (uintptr_t)other.at;
    if (one.bytes == 0 || other.bytes == 0)
        return 0;
    return a <= b ? b - a < one.bytes : a - b < other.bytes;
}

/* May these be lent to one call? */
static inline uint32_t mensorique_ranges_status(const struct mensorique_range *ranges, size_t count) {
    size_t i, j;
    for (i = 0; i < count; i++)
        if (ranges[i].at == NULL && ranges[i].bytes > 0)
            return MENSORIQUE_REFUSED_NULL;
    for (i = 0; i < count; i++)
        for (j = 0; j < i; j++)
            if ((ranges[i].written || ranges[j].written) && mensorique_ranges_overlap(ranges[i], ranges[j]))
                return MENSORIQUE_REFUSED_OVERLAP;
    return MENSORIQUE_GRANTED;
}

/* A field and its length, as what a call reads or writes. */
#define MENSORIQUE_READS(from, field)  mensorique_range_of((from).field, (from).field##_length, sizeof *(from).field, 0)
#define MENSORIQUE_WRITES(from, field) mensorique_range_of((from).field, (from).field##_length, sizeof *(from).field, 1)

/* ---- The calls */

/* The words of room that a loan's depth and size take; 0 where one of them is above its limit. */
static inline size_t mensorique_call_room_words(struct mensorique_run_loan loan) { return mensorique_room_words(loan.depth, loan.size); }

/* Reads a question's text. */
static inline struct mensorique_read mensorique_call_read_question(struct mensorique_text text, struct mensorique_read_loan loan) {
    const struct mensorique_range lent[] = {MENSORIQUE_READS(text, text), MENSORIQUE_WRITES(loan, arities), MENSORIQUE_WRITES(loan, words)};
    struct mensorique_read read;
    read.place = 0;
    read.question.unknowns = SIZE_MAX;
    read.question.arities = loan.arities;
    read.question.arities_length = 0;
    read.question.equations = 0;
    read.question.words = loan.words;
    read.question.words_length = 0;
    read.status = mensorique_ranges_status(lent, MENSORIQUE_LENGTH(lent));
    if (read.status == MENSORIQUE_GRANTED)
        read.status = mensorique_read_question((const uint8_t *)text.text, text.text_length, loan.arities, loan.arities_length, loan.words, loan.words_length,
                                               &read.question.unknowns, &read.question.arities_length, &read.question.equations,
                                               &read.question.words_length, &read.place);
    return read;
}

/* Writes a question as text, without a NUL. */
static inline struct mensorique_written mensorique_call_write_question(struct mensorique_question question, struct mensorique_text_loan loan) {
    const struct mensorique_range lent[] = {MENSORIQUE_READS(question, arities), MENSORIQUE_READS(question, words), MENSORIQUE_WRITES(loan, text)};
    struct mensorique_written written;
    written.place = written.length = 0;
    written.status = mensorique_ranges_status(lent, MENSORIQUE_LENGTH(lent));
    if (written.status == MENSORIQUE_GRANTED)
        written.status = mensorique_write_question(question.unknowns, question.arities, question.arities_length, question.equations, question.words,
                                                   question.words_length, (uint8_t *)loan.text, loan.text_length, &written.length, &written.place);
    return written;
}

/* Writes a list as text, without a NUL. */
static inline struct mensorique_written mensorique_call_write_answers(struct mensorique_list list, struct mensorique_text_loan loan) {
    const struct mensorique_range lent[] = {MENSORIQUE_READS(list, arities), MENSORIQUE_READS(list, words), MENSORIQUE_WRITES(loan, text)};
    struct mensorique_written written;
    written.place = written.length = 0;
    written.status = mensorique_ranges_status(lent, MENSORIQUE_LENGTH(lent));
    if (written.status == MENSORIQUE_GRANTED)
        written.status = mensorique_write_answers(list.arities, list.arities_length, list.end, list.visited, (size_t)list.count, list.words,
                                                  list.words_length, (uint8_t *)loan.text, loan.text_length, &written.length, &written.place);
    return written;
}

/* Are two ground terms equal? */
static inline struct mensorique_judged mensorique_call_equal(struct mensorique_terms row) {
    const struct mensorique_range lent[] = {MENSORIQUE_READS(row, arities), MENSORIQUE_READS(row, words)};
    struct mensorique_judged judged;
    judged.place = 0;
    judged.verdict = MENSORIQUE_NOT_TOLD;
    judged.status = mensorique_ranges_status(lent, MENSORIQUE_LENGTH(lent));
    if (judged.status == MENSORIQUE_GRANTED)
        judged.status = mensorique_equal(row.arities, row.arities_length, row.words, row.words_length, &judged.verdict, &judged.place);
    return judged;
}

/* Do values solve a question? */
static inline struct mensorique_judged mensorique_call_solves(struct mensorique_question question, struct mensorique_values values) {
    const struct mensorique_range lent[] = {MENSORIQUE_READS(question, arities), MENSORIQUE_READS(question, words), MENSORIQUE_READS(values, words)};
    struct mensorique_judged judged;
    judged.place = 0;
    judged.verdict = MENSORIQUE_NOT_TOLD;
    judged.status = mensorique_ranges_status(lent, MENSORIQUE_LENGTH(lent));
    if (judged.status == MENSORIQUE_GRANTED)
        judged.status = mensorique_solves(question.unknowns, question.arities, question.arities_length, question.equations, question.words,
                                          question.words_length, values.words, values.words_length, &judged.verdict, &judged.place);
    return judged;
}

/* Lists the answers of a question. */
static inline struct mensorique_ran mensorique_call_run(struct mensorique_question question, struct mensorique_run_loan loan) {
    const struct mensorique_range lent[] = {MENSORIQUE_READS(question, arities), MENSORIQUE_READS(question, words), MENSORIQUE_WRITES(loan, answers),
                                            MENSORIQUE_WRITES(loan, room)};
    struct mensorique_ran ran;
    ran.place = 0;
    ran.list.end = MENSORIQUE_NOT_TOLD;
    ran.list.visited = ran.list.count = 0;
    ran.list.arities = question.arities;
    ran.list.arities_length = question.arities_length;
    ran.list.words = loan.answers;
    ran.list.words_length = 0;
    ran.status = mensorique_ranges_status(lent, MENSORIQUE_LENGTH(lent));
    if (ran.status == MENSORIQUE_GRANTED)
        ran.status = mensorique_run(question.unknowns, question.arities, question.arities_length, question.equations, question.words, question.words_length,
                                    loan.steps, loan.depth, loan.size, loan.answers, loan.answers_length, (uint16_t *)(void *)loan.room, loan.room_length,
                                    &ran.list.end, &ran.list.visited, &ran.list.count, &ran.list.words_length, &ran.place);
    return ran;
}

#endif

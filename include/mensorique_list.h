/* Mensorique: through a list of answers.
 *
 * The end of a term, the next answer, the next binding, and what an unknown stands for when all bindings are put in. All is static inline, in C99 and C++11;
 * nothing is allocated, nothing recurses, and every loop ends, whatever the words are. Of stack, putting values in takes some 5 KiB, and the rest less than one.
 *
 *     for (answer = mensorique_first_answer(ran.list); answer.found == MENSORIQUE_HERE; answer = mensorique_next_answer(answer))
 *         for (binding = mensorique_first_binding(answer); binding.found == MENSORIQUE_HERE; binding = mensorique_next_binding(binding))
 *             .. binding.unknown, binding.value ..
 *
 * Words are looked at before they are believed, so that a list may come from anywhere: a functor must have an arity, of MENSORIQUE_MOST_ARITY at most, and an
 * unknown's number is below MENSORIQUE_MOST_PATH_UNKNOWNS. What a run listed always goes through.
 */
#ifndef MENSORIQUE_LIST_H
#define MENSORIQUE_LIST_H

#include "mensorique_call.h"

/* Stands for a length where words form no term. */
#define MENSORIQUE_NO_TERM SIZE_MAX

/* ---- Terms */

/* The number of the unknown or the functor that a word is; a number above all that there are where it is none. */
static inline size_t mensorique_unknown_of(uint16_t word) { return (size_t)word - MENSORIQUE_UNKNOWN(0); }
static inline size_t mensorique_functor_of(uint16_t word) { return (size_t)word - MENSORIQUE_FUNCTOR(0); }

/* How many terms come after a word, as its parts; MENSORIQUE_NO_TERM where it can't stand in a term. */
static inline size_t mensorique_parts_of(struct mensorique_terms terms, uint16_t word) {
    size_t functor = mensorique_functor_of(word);
    if (word == MENSORIQUE_WITH)
        return 2;
    if (word == MENSORIQUE_EMPTY || mensorique_unknown_of(word) < MENSORIQUE_MOST_PATH_UNKNOWNS)
        return 0;
    if (functor >= MENSORIQUE_MOST_FUNCTORS || functor >= terms.arities_length || terms.arities[functor] > MENSORIQUE_MOST_ARITY)
        return MENSORIQUE_NO_TERM;
    return terms.arities[functor];
}

/* Where the first term ends: how many words it has. MENSORIQUE_NO_TERM where the words begin with none. */
static inline size_t mensorique_term_end(struct mensorique_terms terms) {
    size_t at = 0, due = 1;
    while (due > 0) {
        size_t parts = due > terms.words_length - at ? MENSORIQUE_NO_TERM : mensorique_parts_of(terms, terms.words[at]);
        if (parts == MENSORIQUE_NO_TERM)
            return MENSORIQUE_NO_TERM;
        due = due - 1 + parts;
        at++;
    }
    return at;
}

/* The words after so many, and none where there are not so many. */
static inline struct mensorique_terms mensorique_words_after(struct mensorique_terms terms, size_t many) {
    if (many > terms.words_length)
        many = terms.words_length;
    if (many > 0)
        terms.words += many;
    terms.words_length -= many;
    return terms;
}

/* The first term alone, and what comes after it: both without a word where the words begin with no term. */
static inline struct mensorique_terms mensorique_first_term(struct mensorique_terms terms) {
    size_t end = mensorique_term_end(terms);
    terms.words_length = end == MENSORIQUE_NO_TERM ? 0 : end;
    return terms;
}
static inline struct mensorique_terms mensorique_after_term(struct mensorique_terms terms) {
    return mensorique_words_after(terms, mensorique_term_end(terms));
}

/* The terms of a question: left and right of each equation in turn. */
static inline struct mensorique_terms mensorique_question_terms(struct mensorique_question question) {
    struct mensorique_terms terms;
    terms.arities = question.arities;
    terms.arities_length = question.arities_length;
    terms.words = question.words;
    terms.words_length = question.words_length;
    return terms;
}

/* ---- Answers and bindings */

/* Is there one here, are there no more, or do the words form none? */
enum mensorique_found { MENSORIQUE_NO_MORE, MENSORIQUE_HERE, MENSORIQUE_BROKEN };

/* A binding: the unknown's number and its value, which may mention unknowns that later bindings bind. Then what is still to come of its answer. */
struct mensorique_binding {
    enum mensorique_found found;
    uint16_t unknown;
    struct mensorique_terms value;
    struct mensorique_terms rest;
    size_t left;
};

/* An answer: its number in the list, from 0, the count of its bindings, and their words. Then what is still to come of the list. */
struct mensorique_answer {
    enum mensorique_found found;
    uint64_t number;
    size_t bindings;
    struct mensorique_terms words;
    struct mensorique_terms rest;
    uint64_t left;
};

static inline struct mensorique_binding mensorique_binding_at(struct mensorique_terms rest, size_t left) {
    struct mensorique_binding binding;
    binding.found = left == 0 ? MENSORIQUE_NO_MORE : MENSORIQUE_BROKEN;
    binding.unknown = 0;
    binding.value = mensorique_words_after(rest, rest.words_length);
    binding.rest = rest;
    binding.left = left;
    if (left == 0 || rest.words_length == 0 || rest.words[0] >= MENSORIQUE_MOST_PATH_UNKNOWNS)
        return binding;
    binding.value = mensorique_first_term(mensorique_words_after(rest, 1));
    if (binding.value.words_length == 0)
        return binding;
    binding.found = MENSORIQUE_HERE;
    binding.unknown = rest.words[0];
    binding.rest = mensorique_words_after(rest, 1 + binding.value.words_length);
    binding.left = left - 1;
    return binding;
}

/* The answer's first binding, and the one after a binding. In an answer that was found none is broken. */
static inline struct mensorique_binding mensorique_first_binding(struct mensorique_answer answer) {
    return mensorique_binding_at(answer.words, answer.bindings);
}
static inline struct mensorique_binding mensorique_next_binding(struct mensorique_binding binding) {
    return mensorique_binding_at(binding.rest, binding.left);
}

static inline struct mensorique_answer mensorique_answer_at(struct mensorique_terms rest, uint64_t left, uint64_t number) {
    struct mensorique_answer answer;
    struct mensorique_binding binding;
    answer.found = left == 0 && rest.words_length == 0 ? MENSORIQUE_NO_MORE : MENSORIQUE_BROKEN;
    answer.number = number;
    answer.bindings = 0;
    answer.words = mensorique_words_after(rest, 1);
    answer.rest = rest;
    answer.left = left;
    if (left == 0 || rest.words_length == 0)
        return answer;
    binding = mensorique_binding_at(answer.words, rest.words[0]);
    while (binding.found == MENSORIQUE_HERE)
        binding = mensorique_next_binding(binding);
    if (binding.found == MENSORIQUE_BROKEN)
        return answer;
    answer.found = MENSORIQUE_HERE;
    answer.bindings = rest.words[0];
    answer.words.words_length -= binding.rest.words_length;
    answer.rest = binding.rest;
    answer.left = left - 1;
    return answer;
}

/* The list's first answer, and the one after an answer. Words that are left over after the last one are broken too. */
static inline struct mensorique_answer mensorique_first_answer(struct mensorique_list list) {
    struct mensorique_terms words;
    words.arities = list.arities;
    words.arities_length = list.arities_length;
    words.words = list.words;
    words.words_length = list.words_length;
    return mensorique_answer_at(words, list.count, 0);
}
static inline struct mensorique_answer mensorique_next_answer(struct mensorique_answer answer) {
    return mensorique_answer_at(answer.rest, answer.left, answer.number + 1);
}

/* ---- Values put in */

/* How many words the terms have with all bindings put in; SIZE_MAX for that many and more. Bindings are taken in order, each once, since a value never mentions
 * an unknown that is bound in its own or an earlier line. `often` is how often each unknown stands in the terms by then: no more often than they have words, so
 * that it can only be wrong where the length is SIZE_MAX already. */
static inline size_t mensorique_filled_length(struct mensorique_answer answer, struct mensorique_terms terms) {
    size_t often[MENSORIQUE_MOST_PATH_UNKNOWNS] = {0}, length = terms.words_length, unknown, i;
    struct mensorique_binding binding;
    for (i = 0; i < terms.words_length; i++)
        if ((unknown = mensorique_unknown_of(terms.words[i])) < MENSORIQUE_MOST_PATH_UNKNOWNS)
            often[unknown]++;
    for (binding = mensorique_first_binding(answer); binding.found == MENSORIQUE_HERE; binding = mensorique_next_binding(binding)) {
        size_t times = often[binding.unknown], more = binding.value.words_length - 1;
        often[binding.unknown] = 0;
        length = more > 0 && times > (SIZE_MAX - length) / more ? SIZE_MAX : length + times * more;
        for (i = 0; i < binding.value.words_length; i++)
            if ((unknown = mensorique_unknown_of(binding.value.words[i])) < MENSORIQUE_MOST_PATH_UNKNOWNS)
                often[unknown] += times;
    }
    return length;
}

/* Terms with values put in, which stand in what was lent. */
struct mensorique_filled {
    uint32_t status;
    size_t place;
    struct mensorique_terms terms;
};

/* Writes terms with all bindings of an answer put in. What no binding binds stays an unknown. Refused, with nothing written and no words in the result:
 * MENSORIQUE_REFUSED_OVERLAP and _NULL; MENSORIQUE_REFUSED_WORDS where the answer is not here, or where the words form no terms, one or more, at the
 * place where one is due; MENSORIQUE_REFUSED_BUFFER, whose place is how many words it takes. */
static inline struct mensorique_filled mensorique_fill(struct mensorique_answer answer, struct mensorique_terms terms, uint16_t *to, size_t to_length) {
    const struct mensorique_range lent[] = {MENSORIQUE_READS(answer.words, words), MENSORIQUE_READS(answer.words, arities), MENSORIQUE_READS(terms, words),
                                            MENSORIQUE_READS(terms, arities), mensorique_range_of(to, to_length, sizeof *to, 1)};
    struct mensorique_terms rest = terms;
    struct mensorique_filled filled;
    struct mensorique_binding binding;
    size_t length, more, from, at;
    filled.place = 0;
    filled.terms = terms;
    filled.terms.words = to;
    filled.terms.words_length = 0;
    filled.status = mensorique_ranges_status(lent, MENSORIQUE_LENGTH(lent));
    if (filled.status != MENSORIQUE_GRANTED)
        return filled;
    filled.status = MENSORIQUE_REFUSED_WORDS;
    if (answer.found != MENSORIQUE_HERE)
        return filled;
    do {
        const size_t end = mensorique_term_end(rest);
        filled.place = terms.words_length - rest.words_length;
        if (end == MENSORIQUE_NO_TERM)
            return filled;
        rest = mensorique_words_after(rest, end);
    } while (rest.words_length > 0);
    filled.status = MENSORIQUE_REFUSED_BUFFER;
    filled.place = mensorique_filled_length(answer, terms);
    if (filled.place > to_length)
        return filled;
    /* Each binding in turn: what stands after its unknown moves to the right, from the end on. */
    memcpy(to, terms.words, terms.words_length * sizeof *to);
    length = terms.words_length;
    for (binding = mensorique_first_binding(answer); binding.found == MENSORIQUE_HERE; binding = mensorique_next_binding(binding)) {
        const uint16_t unknown = MENSORIQUE_UNKNOWN(binding.unknown);
        for (more = 0, at = 0; at < length; at++)
            more += to[at] == unknown ? binding.value.words_length - 1 : 0;
        from = length;
        at = length += more;
        while (from-- > 0)
            if (to[from] == unknown) {
                at -= binding.value.words_length;
                memcpy(to + at, binding.value.words, binding.value.words_length * sizeof *to);
            } else {
                to[--at] = to[from];
            }
    }
    filled.status = MENSORIQUE_GRANTED;
    filled.place = 0;
    filled.terms.words_length = length;
    return filled;
}

/* Writes what an unknown stands for in an answer, with all bindings put in. Refused as above; a number that no unknown has is MENSORIQUE_REFUSED_WORDS. */
static inline struct mensorique_filled mensorique_value(struct mensorique_answer answer, size_t unknown, uint16_t *to, size_t to_length) {
    const uint16_t word = unknown < MENSORIQUE_MOST_PATH_UNKNOWNS ? MENSORIQUE_UNKNOWN(unknown) : UINT16_MAX;
    struct mensorique_terms term = answer.words;
    term.words = &word;
    term.words_length = 1;
    return mensorique_fill(answer, term, to, to_length);
}

#endif

/* Mensorique: what people read.
 *
 * The text of a status and of an end, the version, and a printer of terms that takes names. All is static inline, in C99 and C++11; nothing is allocated and
 * nothing recurses. For the text form, which can be read back, there are mensorique_call_write_question and mensorique_call_write_answers.
 */
#ifndef MENSORIQUE_PRINT_H
#define MENSORIQUE_PRINT_H

#include "mensorique_list.h"

/* What a status says. */
static inline const char *mensorique_status_text(uint32_t status) {
    switch (status) {
    case MENSORIQUE_GRANTED: return "granted";
    case MENSORIQUE_REFUSED_BYTE: return "a byte that the text form hasn't here, or the text stops";
    case MENSORIQUE_REFUSED_NUMBER: return "number missing or with a leading zero";
    case MENSORIQUE_REFUSED_LIMIT: return "number, count, run limit or 4,097th symbol above its limit";
    case MENSORIQUE_REFUSED_UNDECLARED: return "unknown or functor not declared";
    case MENSORIQUE_REFUSED_ARGUMENTS: return "wrong count of arguments";
    case MENSORIQUE_REFUSED_NESTING: return "nesting above 200";
    case MENSORIQUE_REFUSED_BUFFER: return "output buffer or room too small; the place is the length needed";
    case MENSORIQUE_REFUSED_WORDS: return "words that form no such question, answer list or ground term";
    case MENSORIQUE_REFUSED_OVERLAP: return "a buffer that is written overlaps another";
    case MENSORIQUE_REFUSED_NULL: return "a pointer is NULL and its length is not 0";
    default: return "no such status";
    }
}

/* The word for an end, as it stands in a list's text. */
static inline const char *mensorique_end_text(uint32_t end) {
    switch (end) {
    case MENSORIQUE_END_DONE: return "done";
    case MENSORIQUE_END_STEPS: return "steps";
    case MENSORIQUE_END_DEPTH: return "depth";
    case MENSORIQUE_END_SIZE: return "size";
    case MENSORIQUE_END_SPACE: return "space";
    case MENSORIQUE_END_NAMES: return "names";
    case MENSORIQUE_NOT_TOLD: return "not told";
    default: return "no such end";
    }
}

/* The version of these header files. The archive has none of its own. */
static inline const char *mensorique_version(void) { return MENSORIQUE_VERSION; }

/* Names of functors and of unknowns, by number. One that is not there, or NULL, is printed as in the text form: f2, x3. */
struct mensorique_names {
    const char *const *functors;
    size_t functors_length;
    const char *const *unknowns;
    size_t unknowns_length;
};

/* What is printed so far: bytes beyond the buffer are counted and not kept. */
struct mensorique_pen {
    char *to;
    size_t to_length;
    size_t length;
};

static inline void mensorique_put(struct mensorique_pen *pen, const char *string) {
    for (; *string != '\0'; string++) {
        if (pen->length < pen->to_length)
            pen->to[pen->length] = *string;
        pen->length++;
    }
}

static inline void mensorique_put_name(struct mensorique_pen *pen, const char *const *names, size_t names_length, char letter, size_t number) {
    char plain[24];
    size_t at = sizeof plain;
    if (names != NULL && number < names_length && names[number] != NULL) {
        mensorique_put(pen, names[number]);
        return;
    }
    plain[--at] = '\0';
    do {
        plain[--at] = (char)('0' + (char)(number % 10));
        number /= 10;
    } while (number > 0);
    plain[--at] = letter;
    mensorique_put(pen, plain + at);
}

/* Prints the first of some terms as the text form has it, with names, and returns its length, as snprintf does: the buffer holds as much as fits, and a NUL
 * after it. MENSORIQUE_NO_TERM comes back, and the buffer holds the empty string, where the words begin with no term, or brackets nest above
 * MENSORIQUE_MOST_NESTING; or, with nothing written, where the buffer overlaps the terms or is NULL beside a length that is not 0. */
static inline size_t mensorique_print(char *to, size_t to_length, struct mensorique_terms terms, struct mensorique_names names) {
    const struct mensorique_range lent[] = {MENSORIQUE_READS(terms, words), MENSORIQUE_READS(terms, arities), mensorique_range_of(to, to_length, 1, 1)};
    /* What each open bracket waits for: so many arguments, or a set's member, or its tail. */
    enum { MEMBER = MENSORIQUE_MOST_ARITY + 1, TAIL };
    uint8_t waits[MENSORIQUE_MOST_NESTING];
    size_t open = 0, at = 0;
    struct mensorique_pen pen;
    if (mensorique_ranges_status(lent, MENSORIQUE_LENGTH(lent)) != MENSORIQUE_GRANTED)
        return MENSORIQUE_NO_TERM;
    if (to_length > 0)
        to[0] = '\0';
    if (mensorique_term_end(terms) == MENSORIQUE_NO_TERM)
        return MENSORIQUE_NO_TERM;
    pen.to = to;
    pen.to_length = to_length;
    pen.length = 0;
    do {
        const uint16_t word = terms.words[at++];
        const size_t parts = mensorique_parts_of(terms, word);
        const int tail = open > 0 && waits[open - 1] == TAIL;
        if (tail && word == MENSORIQUE_WITH) {
            mensorique_put(&pen, ",");
            waits[open - 1] = MEMBER;
            continue;
        }
        if (tail && word != MENSORIQUE_EMPTY)
            mensorique_put(&pen, "|");
        if (word == MENSORIQUE_WITH)
            mensorique_put(&pen, "{");
        else if (word == MENSORIQUE_EMPTY)
            mensorique_put(&pen, tail ? "" : "{}");
        else if (mensorique_unknown_of(word) < MENSORIQUE_MOST_PATH_UNKNOWNS)
            mensorique_put_name(&pen, names.unknowns, names.unknowns_length, 'x', mensorique_unknown_of(word));
        else
            mensorique_put_name(&pen, names.functors, names.functors_length, 'f', mensorique_functor_of(word));
        if (parts > 0) {
            if (open == MENSORIQUE_MOST_NESTING) {
                if (to_length > 0)
                    to[0] = '\0';
                return MENSORIQUE_NO_TERM;
            }
            if (word != MENSORIQUE_WITH)
                mensorique_put(&pen, "(");
            waits[open++] = word == MENSORIQUE_WITH ? (uint8_t)MEMBER : (uint8_t)parts;
            continue;
        }
        /* A term is whole, and with it each bracket that waited for nothing else. */
        while (open > 0 && (waits[open - 1] == TAIL || waits[open - 1] == 1)) {
            open--;
            mensorique_put(&pen, waits[open] == TAIL ? "}" : ")");
        }
        if (open > 0 && waits[open - 1] == MEMBER) {
            waits[open - 1] = TAIL;
        } else if (open > 0) {
            waits[open - 1]--;
            mensorique_put(&pen, ",");
        }
    } while (open > 0);
    if (to_length > 0)
        to[pen.length < to_length ? pen.length : to_length - 1] = '\0';
    return pen.length;
}

#endif

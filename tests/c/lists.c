/* Through lists of answers: bindings put in, and walking and printing, held to the archive's writer on good and on random words. In what C99 and C++11 have in
 * common. */
#include "check.h"

#include <stdlib.h>

enum { SPACE = 4096, TEXT = 65536 };
static uint16_t answers[SPACE], filled[SPACE];
static char text[TEXT], wanted[TEXT];

static struct mensorique_terms terms_of(const uint16_t *words, size_t length) {
    struct mensorique_terms terms;
    terms.arities = arities;
    terms.arities_length = MENSORIQUE_LENGTH(arities);
    terms.words = words;
    terms.words_length = length;
    return terms;
}
#define TERMS(words) terms_of(words, MENSORIQUE_LENGTH(words))

static struct mensorique_list list_of(uint64_t count, const uint16_t *words, size_t length) {
    struct mensorique_list list;
    list.end = MENSORIQUE_END_DONE;
    list.visited = list.count = count;
    list.arities = arities;
    list.arities_length = MENSORIQUE_LENGTH(arities);
    list.words = words;
    list.words_length = length;
    return list;
}
#define LIST(count, words) list_of(count, words, MENSORIQUE_LENGTH(words))

/* ---- Bindings put in */

static void filling(void) {
    /* x0 = h(x1,x2), x1 = g(x2), x2 = {a|x3}; and an answer that says nothing */
    static const uint16_t words[] = {3, 0, F(H), X(1), X(2), 1, F(G), X(2), 2, WITH, F(0), X(3), 0};
    static const uint16_t asked[] = {WITH, X(0), X(2), X(3)}, bad[] = {X(0), WITH};
    const struct mensorique_answer answer = mensorique_first_answer(LIST(2, words)), next = mensorique_next_answer(answer);
    const size_t needed = 8;
    struct mensorique_filled value = mensorique_value(answer, 0, filled, SPACE);
    struct mensorique_answer gone = answer;
    size_t length;
    CHECK(answer.found == MENSORIQUE_HERE && answer.bindings == 3 && answer.words.words_length == MENSORIQUE_LENGTH(words) - 2);
    CHECK(next.found == MENSORIQUE_HERE && next.number == 1 && next.bindings == 0 && mensorique_next_answer(next).found == MENSORIQUE_NO_MORE);
    CHECK(value.status == MENSORIQUE_GRANTED && value.place == 0);
    CHECK(prints(value.terms, "f4(f3({f0|x3}),{f0|x3})"));
    CHECK(prints(mensorique_value(answer, 3, filled, SPACE).terms, "x3"));
    CHECK(prints(mensorique_value(answer, 511, filled, SPACE).terms, "x511"));
    value = mensorique_fill(answer, TERMS(asked), filled, SPACE);
    CHECK(prints(value.terms, "{f4(f3({f0|x3}),{f0|x3}),f0|x3}") && prints(mensorique_after_term(value.terms), "x3"));
    /* Each length of the buffer: what is needed is told, and then nothing is written. */
    for (length = 0; length <= needed + 2; length++) {
        memset(filled, 77, sizeof filled);
        value = mensorique_value(answer, 0, length > 0 ? filled : NULL, length);
        CHECK(value.status == (length < needed ? MENSORIQUE_REFUSED_BUFFER : MENSORIQUE_GRANTED));
        CHECK(length < needed ? value.place == needed && value.terms.words_length == 0 && filled[0] == 77 * 257
                              : value.terms.words_length == needed && filled[needed] == 77 * 257);
    }
    CHECK(mensorique_value(answer, 512, filled, SPACE).status == MENSORIQUE_REFUSED_WORDS);
    CHECK(mensorique_value(answer, 1000, filled, SPACE).status == MENSORIQUE_REFUSED_WORDS);
    CHECK(mensorique_value(answer, SIZE_MAX, filled, SPACE).status == MENSORIQUE_REFUSED_WORDS);
    value = mensorique_fill(answer, TERMS(bad), filled, SPACE);
    CHECK(value.status == MENSORIQUE_REFUSED_WORDS && value.place == 1);
    CHECK(mensorique_fill(answer, terms_of(NULL, 0), filled, SPACE).status == MENSORIQUE_REFUSED_WORDS);
    gone.found = MENSORIQUE_NO_MORE;
    CHECK(mensorique_value(gone, 0, filled, SPACE).status == MENSORIQUE_REFUSED_WORDS);
    CHECK(mensorique_value(answer, 0, NULL, 1).status == MENSORIQUE_REFUSED_NULL);
}

/* Over what is read: the answer's words, and the terms'. */
static void filling_over(void) {
    static const uint16_t words[] = {1, 0, F(0)}, asked[] = {WITH, X(0), WITH, X(1), EMPTY};
    struct mensorique_answer answer;
    size_t at;
    memcpy(filled, words, sizeof words);
    memcpy(filled + 8, asked, sizeof asked);
    answer = mensorique_first_answer(list_of(1, filled, 3));
    for (at = 0; at < 8 + MENSORIQUE_LENGTH(asked) + 8; at++) {
        const struct mensorique_filled value = mensorique_fill(answer, terms_of(filled + 8, MENSORIQUE_LENGTH(asked)), filled + at, 1);
        const int over = (at >= 1 && at < 3) || (at >= 8 && at < 8 + MENSORIQUE_LENGTH(asked));
        CHECK(value.status == (over ? MENSORIQUE_REFUSED_OVERLAP : MENSORIQUE_REFUSED_BUFFER));
    }
    CHECK(memcmp(filled, words, sizeof words) == 0 && memcmp(filled + 8, asked, sizeof asked) == 0);
}

/* Values that double at each of 300 bindings: what is needed can't be counted, and is told at once. And 511 unknowns each of which is the next. Lists from
 * elsewhere whose unknown stands in its own value, or is bound twice, come to an end too. */
static void filling_long(void) {
    static const uint16_t group[] = {WITH, X(0), EMPTY}, own[] = {1, 0, F(G), X(0)}, twice[] = {2, 0, F(G), X(1), 0, F(H), X(1), X(1)};
    size_t i, at = 0;
    answers[at++] = 300;
    for (i = 0; i < 300; i++) {
        answers[at++] = (uint16_t)i;
        answers[at++] = F(H);
        answers[at++] = X(i + 1);
        answers[at++] = X(i + 1);
    }
    CHECK(mensorique_value(mensorique_first_answer(list_of(1, answers, at)), 0, filled, SPACE).place == SIZE_MAX);
    CHECK(mensorique_fill(mensorique_first_answer(list_of(1, answers, at)), TERMS(group), filled, SPACE).place == SIZE_MAX);
    CHECK(mensorique_value(mensorique_first_answer(list_of(1, answers, at)), 290, filled, SPACE).terms.words_length == 2047);
    at = 0;
    answers[at++] = 511;
    for (i = 0; i < 511; i++) {
        answers[at++] = (uint16_t)i;
        answers[at++] = X(i + 1);
    }
    CHECK(prints(mensorique_value(mensorique_first_answer(list_of(1, answers, at)), 0, filled, 1).terms, "x511"));
    CHECK(mensorique_value(mensorique_first_answer(LIST(1, own)), 0, filled, SPACE).terms.words_length == 2 && prints(terms_of(filled, 2), "f3(x0)"));
    CHECK(mensorique_value(mensorique_first_answer(LIST(1, twice)), 0, filled, 2).terms.words_length == 2 && prints(terms_of(filled, 2), "f3(x1)"));
}

/* ---- Walking and printing, held to the writer */

static uint32_t seed = 1;
static size_t below(size_t bound) {
    seed = seed * 1664525u + 1013904223u;
    return (size_t)(seed >> 8) % bound;
}

/* Appends a random term of some depth at most. */
static size_t random_term(uint16_t *to, size_t at, size_t depth) {
    size_t kind = depth == 0 ? below(6) : below(10), k;
    if (kind == 0)
        to[at++] = EMPTY;
    else if (kind < 3)
        to[at++] = X(below(2) == 0 ? below(4) : below(MENSORIQUE_MOST_PATH_UNKNOWNS));
    else if (kind < 6)
        to[at++] = F(below(3));
    else if (kind < 8) {
        to[at++] = WITH;
        at = random_term(to, random_term(to, at, depth - 1), depth - 1);
    } else {
        to[at++] = F(kind == 8 ? G : H);
        for (k = 8; k <= kind; k++)
            at = random_term(to, at, depth - 1);
    }
    return at;
}

/* A random list: its words, and its count of answers. */
static size_t random_list(uint16_t *to, uint64_t *count) {
    size_t at = 0, left, bindings;
    *count = below(4);
    for (left = (size_t)*count; left > 0; left--) {
        to[at++] = (uint16_t)(bindings = below(4));
        for (; bindings > 0; bindings--) {
            to[at++] = (uint16_t)below(MENSORIQUE_MOST_PATH_UNKNOWNS);
            at = random_term(to, at, 4);
        }
    }
    return at;
}

/* The text of a list as we walk and print it, and whether it goes through. */
static int walked(struct mensorique_list list, char *to) {
    struct mensorique_answer answer;
    struct mensorique_binding binding;
    to += sprintf(to, "edition=1\nend=done\nvisited=%u\nanswers=%u\n", (unsigned)list.visited, (unsigned)list.count);
    for (answer = mensorique_first_answer(list); answer.found == MENSORIQUE_HERE; answer = mensorique_next_answer(answer)) {
        size_t seen = 0;
        to += sprintf(to, "bindings=%u\n", (unsigned)answer.bindings);
        for (binding = mensorique_first_binding(answer); binding.found == MENSORIQUE_HERE; binding = mensorique_next_binding(binding), seen++) {
            to += sprintf(to, "unknown=%u\nvalue=", (unsigned)binding.unknown);
            to += mensorique_print(to, SPACE, binding.value, plain());
            to += sprintf(to, "\n");
        }
        CHECK(binding.found == MENSORIQUE_NO_MORE && seen == answer.bindings);
    }
    return answer.found == MENSORIQUE_NO_MORE;
}

/* Good lists and such as have a word changed, gone or too many, in memory of just their length. */
static void held_to_writer(void) {
    static const uint16_t others[] = {0, 1, 2, X(0), X(512), F(0), F(3), F(5), 65535};
    size_t cases, good = 0;
    for (cases = 0; cases < 20000; cases++) {
        struct mensorique_text_loan page;
        struct mensorique_written written;
        uint64_t count;
        size_t length = random_list(filled, &count), change = below(6);
        uint16_t *own;
        if (change == 0 && length > 0)
            filled[below(length)] = others[below(MENSORIQUE_LENGTH(others))];
        else if (change == 1 && length > 0)
            length -= 1 + below(length);
        else if (change == 2)
            filled[length++] = others[below(MENSORIQUE_LENGTH(others))];
        own = (uint16_t *)malloc(length * sizeof *own + (length == 0));
        if (own == NULL)
            exit(2);
        memcpy(own, filled, length * sizeof *own);
        page.text = text;
        page.text_length = sizeof text;
        written = mensorique_call_write_answers(list_of(count, own, length), page);
        CHECK(written.status == MENSORIQUE_GRANTED || written.status == MENSORIQUE_REFUSED_WORDS);
        CHECK(walked(list_of(count, own, length), wanted) == (written.status == MENSORIQUE_GRANTED));
        if (written.status == MENSORIQUE_GRANTED) {
            CHECK(strlen(wanted) == written.length && memcmp(text, wanted, written.length) == 0);
            good++;
        }
        free(own);
    }
    CHECK(good > 10000 && good < 19000);
}

/* A term of so many brackets, one in another. */
static struct mensorique_terms nested(size_t levels, int sets) {
    size_t at = 0, i;
    for (i = 0; i < levels; i++)
        filled[at++] = sets ? WITH : F(G);
    filled[at++] = F(0);
    for (i = 0; sets && i < levels; i++)
        filled[at++] = EMPTY;
    return terms_of(filled, at);
}

static void printing(void) {
    static const uint16_t words[] = {WITH, F(H), X(1), F(2), WITH, WITH, EMPTY, EMPTY, F(G), X(300)};
    static const char *const courses[] = {"algebra", "geometry", NULL, "lab"}, *const places[] = {"first", "second"};
    static const char shown[] = "{f4(second,f2),{{}}|lab(x300)}";
    struct mensorique_names names = plain();
    char page[64];
    size_t length;
    int sets;
    CHECK(prints(TERMS(words), "{f4(x1,f2),{{}}|f3(x300)}"));
    names.functors = courses;
    names.functors_length = MENSORIQUE_LENGTH(courses);
    names.unknowns = places;
    names.unknowns_length = MENSORIQUE_LENGTH(places);
    for (length = 0; length < sizeof page; length++) {
        memset(page, '#', sizeof page);
        CHECK(mensorique_print(length > 0 ? page : NULL, length, TERMS(words), names) == strlen(shown));
        if (length > 0) {
            const size_t kept = length > strlen(shown) ? strlen(shown) : length - 1;
            CHECK(memcmp(page, shown, kept) == 0 && page[kept] == '\0' && page[kept + 1] == '#');
        }
    }
    /* No term: the buffer holds the empty string. Over the words, or NULL: nothing is written. */
    for (length = 0; length < MENSORIQUE_LENGTH(words); length++) {
        page[0] = '#';
        CHECK(mensorique_print(page, sizeof page, terms_of(words, length), names) == MENSORIQUE_NO_TERM && page[0] == '\0');
    }
    names.functors = names.unknowns = NULL;
    CHECK(mensorique_print(NULL, 0, TERMS(words), names) == strlen("{f4(x1,f2),{{}}|f3(x300)}"));
    memcpy(filled, words, sizeof words);
    CHECK(mensorique_print((char *)filled + sizeof words - 1, 8, terms_of(filled, MENSORIQUE_LENGTH(words)), names) == MENSORIQUE_NO_TERM);
    CHECK(memcmp(filled, words, sizeof words) == 0);
    CHECK(mensorique_print(NULL, 1, TERMS(words), names) == MENSORIQUE_NO_TERM);
    for (sets = 0; sets <= 1; sets++) {
        CHECK(mensorique_print(text, sizeof text, nested(200, sets), names) == (sets ? 200 + 2 + 200 : 200 * 3 + 2 + 200));
        CHECK(mensorique_print(text, sizeof text, nested(201, sets), names) == MENSORIQUE_NO_TERM && text[0] == '\0');
    }
}

/* Words that are none: lengths that no words have, arities that are none or too high, and nothing at all. */
static void nothing(void) {
    static const uint8_t high[] = {MENSORIQUE_MOST_ARITY + 1};
    static const uint16_t constant[] = {F(0), 0, 0, 0, 0, 0, 0, 0, 0, 0}, word[] = {F(0), WITH}, last[] = {1, 511, 0}, beyond[] = {1, 512, 0};
    struct mensorique_terms terms = TERMS(constant);
    CHECK(mensorique_term_end(terms) == 1);
    terms.arities_length = 0;
    CHECK(mensorique_term_end(terms) == MENSORIQUE_NO_TERM);
    terms.arities = high;
    terms.arities_length = 1;
    CHECK(mensorique_term_end(terms) == MENSORIQUE_NO_TERM);
    CHECK(mensorique_after_term(TERMS(word)).words == word + 1 && mensorique_after_term(mensorique_after_term(TERMS(word))).words_length == 0);
    CHECK(mensorique_first_term(TERMS(word)).words_length == 1 && mensorique_first_term(mensorique_after_term(TERMS(word))).words_length == 0);
    CHECK(mensorique_term_end(terms_of(NULL, 0)) == MENSORIQUE_NO_TERM);
    CHECK(mensorique_first_answer(list_of(0, NULL, 0)).found == MENSORIQUE_NO_MORE);
    CHECK(mensorique_next_answer(mensorique_first_answer(list_of(0, NULL, 0))).found == MENSORIQUE_NO_MORE);
    CHECK(mensorique_first_answer(list_of(1, NULL, 0)).found == MENSORIQUE_BROKEN);
    CHECK(mensorique_next_answer(mensorique_first_answer(list_of(1, NULL, 0))).found == MENSORIQUE_BROKEN);
    CHECK(mensorique_first_binding(mensorique_first_answer(list_of(1, NULL, 0))).found == MENSORIQUE_NO_MORE);
    CHECK(mensorique_first_answer(LIST(SIZE_MAX, word)).found == MENSORIQUE_BROKEN);
    CHECK(mensorique_first_answer(LIST(1, last)).found == MENSORIQUE_HERE && mensorique_first_answer(LIST(1, beyond)).found == MENSORIQUE_BROKEN);
}

int main(void) {
    filling();
    filling_over();
    filling_long();
    held_to_writer();
    printing();
    nothing();
    return faults > 0;
}

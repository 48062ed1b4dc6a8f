/* Mensorique: equations between finite sets. This is the reference; mensorique_call.h has the same functions with named fields.
 *
 * A question is a list of equations between terms. A run lists every solved form of it, in a fixed order, within lent limits. There are functions that read
 * and write questions and lists as text, that test two ground terms for equality, and that test whether given ground values solve a question. Every
 * function takes any input whatever: bad input is refused with a number and a place, and nothing is written to a buffer then.
 *
 * TERMS IN WORDS. A term is held in 16-bit words, in prefix order:
 *     MENSORIQUE_EMPTY          the empty set {}
 *     MENSORIQUE_WITH           member adding: the member's words follow, then those of the rest. {a,b|s} is WITH a WITH b s
 *     MENSORIQUE_UNKNOWN(i)     unknown i
 *     MENSORIQUE_FUNCTOR(k)     functor k; the words of its arguments follow, as many as its arity
 * A term without unknowns is ground. Order and repetition of members do not matter: {x,x|z} = {x|z}, and {x,y|z} = {y,x|z}.
 *
 * A QUESTION is lent in five arguments: `unknowns`, how many unknowns are declared; `arities` with `arities_length`, the arity of each functor in order;
 * `equations`, how many there are; `words` with `words_length`, the words of two terms for each equation, left then right, with nothing after.
 * For x0 = {f0|x0} with f0 without arguments: 1; {0}, 1; 1; {1000, 1, 2000, 1000}, 4.
 *
 * WHAT COMES BACK. Each function but mensorique_room_words returns a status. MENSORIQUE_GRANTED: the numbers behind the out pointers are written, and
 * *place is left alone. Any other is a refusal: *place is written, the other out numbers are left alone, and every lent buffer is untouched, the room of a
 * run too. A place is an offset in bytes or words, or, for MENSORIQUE_REFUSED_BUFFER, the length needed. The numbers 1 to 8 say:
 *     1 a byte that the text form hasn't here, or the text stops       5 wrong count of arguments
 *     2 number missing or with a leading zero                         6 nesting above 200
 *     3 number, count, run limit or 4,097th symbol above its limit     7 output buffer or room too small; the place is the length needed
 *     4 unknown or functor not declared                               8 words that form no such question, answer list or ground term
 * Counts, limits and arities lent beside words have place 0 and are tested first. Of words, 3 (at 4096) is told before 8, and 8 is told at the first word
 * that can't stand there, or at the length where they stop.
 *
 * POINTERS. An out pointer points to one number, always. A buffer is a pointer and the count of its elements. With a count of 0 the pointer is not
 * followed; it may point anywhere, and to nothing too (NULL). Nothing is kept from one call to the next.
 *
 * OVERLAP. No buffer that is written, and no out number, may overlap another argument; buffers that are only read may overlap each other. No function looks for
 * it, and what comes back is then worth nothing, though it may look like a result: {x0,x1,x2|x3} = {f0,f1,f2} has 168 answers, and with its words at
 * the room's start a run gave MENSORIQUE_GRANTED, MENSORIQUE_END_DONE and none. mensorique_call.h, where arguments are named fields, compares the
 * ranges first and refuses.
 *
 * THREADS. There is no global state: calls may run at the same time as long as none writes what another uses. For runs that means that each has its own
 * room and its own words for answers.
 *
 * STACK. No function allocates, and each is proved to end. mensorique_equal and mensorique_solves go at most 3,072 levels deep, some 250 bytes each, and
 * mensorique_read_question at most 200; otherwise only the digits of a written number are a recursion. MENSORIQUE_STACK bytes are enough for every call:
 * that is measured (examples/stack.c), not proved.
 */
#ifndef MENSORIQUE_H
#define MENSORIQUE_H

#include <stddef.h>
#include <stdint.h>

#if SIZE_MAX != UINT64_MAX
#error "the archive is for machines whose size_t has 64 bits"
#endif

#ifdef __cplusplus
extern "C" {
#endif

/* The version of the product: as the file VERSION has it. */
#define MENSORIQUE_VERSION       "4.0.0"
#define MENSORIQUE_VERSION_MAJOR 4
#define MENSORIQUE_VERSION_MINOR 0
#define MENSORIQUE_VERSION_PATCH 0

/* Statuses. */
#define MENSORIQUE_GRANTED            0u
#define MENSORIQUE_REFUSED_BYTE       1u
#define MENSORIQUE_REFUSED_NUMBER     2u
#define MENSORIQUE_REFUSED_LIMIT      3u
#define MENSORIQUE_REFUSED_UNDECLARED 4u
#define MENSORIQUE_REFUSED_ARGUMENTS  5u
#define MENSORIQUE_REFUSED_NESTING    6u
#define MENSORIQUE_REFUSED_BUFFER     7u
#define MENSORIQUE_REFUSED_WORDS      8u

/* How a run ends. Only MENSORIQUE_END_DONE is final: the list is then every answer that there is. After any other end the search isn't finished, and what
 * is listed is true but need not be all. Tested in the order steps, depth, names, size for a node that is due; space for an answer just visited. */
#define MENSORIQUE_END_DONE  0u  /* every node was visited and every answer held */
#define MENSORIQUE_END_STEPS 20u /* another node is due and steps are spent: lend more steps */
#define MENSORIQUE_END_DEPTH 21u /* the due node is deeper than lent: lend more depth, and the room for it */
#define MENSORIQUE_END_SIZE  22u /* the due node is larger than lent: lend more size, and the room for it */
#define MENSORIQUE_END_SPACE 23u /* an answer's words don't fit what remains: lend more words for answers */
#define MENSORIQUE_END_NAMES 24u /* the due node would need unknown 512; never given for a question within the limits */

/* Limits: the most that is taken of each. */
#define MENSORIQUE_MOST_UNKNOWNS      256
#define MENSORIQUE_MOST_PATH_UNKNOWNS 512 /* with those that a run makes */
#define MENSORIQUE_MOST_FUNCTORS      256
#define MENSORIQUE_MOST_ARITY         8
#define MENSORIQUE_MOST_EQUATIONS     64
#define MENSORIQUE_MOST_WORDS         4096 /* in a question's terms together, and in the ground terms lent to one call */
#define MENSORIQUE_MOST_NESTING       200  /* in text */
#define MENSORIQUE_MOST_STEPS         1000000000
#define MENSORIQUE_MOST_DEPTH         1024
#define MENSORIQUE_MOST_SIZE          8192

/* A buffer of so many bytes holds every question's text. */
#define MENSORIQUE_QUESTION_TEXT 32768

/* Bytes of stack that are enough for any call. */
#define MENSORIQUE_STACK 1048576

/* Words, each a uint16_t. Unknowns of a question are numbered from 0; those that a run makes are numbered on from the question's, at most to 511. */
#define MENSORIQUE_EMPTY      ((uint16_t)0u)
#define MENSORIQUE_WITH       ((uint16_t)1u)
#define MENSORIQUE_UNKNOWN(i) ((uint16_t)(1000u + (unsigned)(i)))
#define MENSORIQUE_FUNCTOR(k) ((uint16_t)(2000u + (unsigned)(k)))

/* The words of room that a run needs, for a depth and a size within the limits. */
#define MENSORIQUE_ROOM_WORDS(depth, size) (((size_t)(depth) + 8u) * ((size_t)(size) + 8u))

/* The same as a function; 0 where depth or size is above its limit. */
size_t mensorique_room_words(size_t depth, size_t size);

/* Reads a question's text: ASCII, one key=value a line, each line closed by one LF, in this order: edition=1, unknowns=, arities= (numbers with commas between,
 * nothing when there are no functors), equations=, then left= and right= for each equation. Terms: x3, f2, f2(x0,f1), {}, {t,t}, {t,t|s}, where s is an
 * unknown or a functor term.
 *     text         the text
 *     arities      a buffer; afterwards it begins with the *functors arities, and is as it was after them. MENSORIQUE_MOST_FUNCTORS always suffice
 *     words        a buffer; afterwards it begins with the *used words of the equations, and is as it was after them. MENSORIQUE_MOST_WORDS suffice
 *     unknowns     out: the count of unknowns
 *     functors     out: the count of functors, which is the arities' length
 *     equations    out: the count of equations
 *     used         out: the count of words
 * Refused: 1 to 6, the first fault from the left; for 1, 5 and 6 the place is the offending byte, or the length where the text stops; for 2 and 3 the
 * first byte due of the number or symbol; for 4 the letter. Then 7 for the arities' buffer; then 7 for the words'. */
uint32_t mensorique_read_question(const uint8_t *text, size_t text_length,
                                  uint8_t *arities, size_t arities_length,
                                  uint16_t *words, size_t words_length,
                                  size_t *unknowns, size_t *functors, size_t *equations, size_t *used,
                                  size_t *place);

/* Writes a question as text. Reading and writing undo each other.
 *     unknowns to words    the question
 *     text                 a buffer; afterwards it begins with the *length bytes of the text, without a NUL, and is as it was after them
 *     length               out: the text's length
 * Refused: 3 at 0 for unknowns, arities or equations; 3 at 4096 for too many words; 8; 6 at the word that opens a bracket too many; 7 with the length
 * needed. So a call with a text_length of 0 measures. */
uint32_t mensorique_write_question(size_t unknowns, const uint8_t *arities, size_t arities_length,
                                   size_t equations, const uint16_t *words, size_t words_length,
                                   uint8_t *text, size_t text_length,
                                   size_t *length, size_t *place);

/* Writes a list of answers as text: the lines edition=1, end= (done, steps, depth, names, size, space), visited=, answers=; then for each answer bindings=,
 * and for each binding unknown= and value=.
 *     arities         the question's
 *     end, visited    the run's end, as one of MENSORIQUE_END_.., and its visited number
 *     answers         the count of answers
 *     words           their words, as mensorique_run lists them; their number has no bound, and unknowns run to 511
 *     text            a buffer; afterwards it begins with the *length bytes of the text, without a NUL, and is as it was after them. 65,536 bytes hold
 *                     the text of every list of at most 4,096 words
 *     length          out: the text's length
 * Refused: 3 at 0 for an end that there isn't, a visited number above 1,000,000,000 or the arities; 8, 6 and 7 as for a question. */
uint32_t mensorique_write_answers(const uint8_t *arities, size_t arities_length,
                                  uint64_t end, uint64_t visited, size_t answers,
                                  const uint16_t *words, size_t words_length,
                                  uint8_t *text, size_t text_length,
                                  size_t *length, size_t *place);

/* Are two ground terms equal?
 *     arities    the functors'
 *     row        the words of both terms, left first
 *     equal      out: 1 where they are equal, 0 where they differ
 * Refused: 3 at 0 for the arities; 3 at 4096 for too many words; 8 along the row. */
uint32_t mensorique_equal(const uint8_t *arities, size_t arities_length,
                          const uint16_t *row, size_t row_length,
                          uint32_t *equal, size_t *place);

/* Do ground values solve a question?
 *     unknowns to words    the question
 *     row                  the words of one value for each unknown, in order
 *     solves               out: 1 where they solve it, 0 where they don't
 * Refused: 3 and 8 for the question, then 3 and 8 for the row, whose places count along the row. */
uint32_t mensorique_solves(size_t unknowns, const uint8_t *arities, size_t arities_length,
                           size_t equations, const uint16_t *words, size_t words_length,
                           const uint16_t *row, size_t row_length,
                           uint32_t *solves, size_t *place);

/* Lists the answers of a question, within limits.
 *     unknowns to words    the question
 *     steps                how many nodes may be visited
 *     depth                how deep a node may be; the root has depth 0
 *     size                 how large a node may be: the symbols on both sides of everything that it holds, each binding's unknown counted as one
 *     answers              a buffer; afterwards it begins with the *used words of the listed answers, and is as it was after them. An answer is its number
 *                          of bindings, then for each binding the unknown's number (not its word) and the words of its value. A binding never
 *                          mentions an unknown that is bound in its own or an earlier line; unknowns that no line binds may have any value
 *     room                 working room of at least MENSORIQUE_ROOM_WORDS(depth, size) words. What it held before changes no result; what it holds after
 *                          a run that was granted means nothing
 *     end                  out: one of MENSORIQUE_END_..
 *     visited              out: how many nodes were visited
 *     count                out: how many answers are listed
 *     used                 out: how many words they have
 * More steps, depth, size or words for answers never alter what was listed: the earlier list begins the later, word for word.
 * Refused: 3 at 0 for a limit above its bound; 3 and 8 for the question; 7 for the room, with the words needed. */
uint32_t mensorique_run(size_t unknowns, const uint8_t *arities, size_t arities_length,
                        size_t equations, const uint16_t *words, size_t words_length,
                        uint64_t steps, size_t depth, size_t size,
                        uint16_t *answers, size_t answers_length,
                        uint16_t *room, size_t room_length,
                        uint32_t *end, uint64_t *visited, uint64_t *count, size_t *used,
                        size_t *place);

#ifdef __cplusplus
}
#endif

#endif

/* What the programs over the archive have in common: a check that tells what is not so, short names for words, and a term's text. */
#ifndef CHECK_H
#define CHECK_H

#include "mensorique_print.h"

#include <stdio.h>

static int faults;
#define CHECK(told) ((told) ? (void)0 : (void)(faults++, printf("%s:%d: not so: %s\n", __FILE__, __LINE__, #told)))

#define F(k) MENSORIQUE_FUNCTOR(k)
#define X(i) MENSORIQUE_UNKNOWN(i)
#define WITH MENSORIQUE_WITH
#define EMPTY MENSORIQUE_EMPTY

/* a, b, c, and g and h with one and two arguments */
static const uint8_t arities[] = {0, 0, 0, 1, 2};
enum { G = 3, H = 4 };

static struct mensorique_names plain(void) {
    struct mensorique_names names;
    names.functors = names.unknowns = NULL;
    names.functors_length = names.unknowns_length = 0;
    return names;
}

/* Does a term print so? */
static int prints(struct mensorique_terms terms, const char *wanted) {
    char given[256];
    return mensorique_print(given, sizeof given, terms, plain()) == strlen(wanted) && strcmp(given, wanted) == 0;
}

#endif

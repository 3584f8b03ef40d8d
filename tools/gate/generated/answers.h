/*
 * A question is a line of numbers: that of the tables, the limit, whether the end is read, and the
 * terminals.
 */
#ifndef ANSWERS_H
#define ANSWERS_H

#include <stdio.h>
#include <stdlib.h>
#include <string.h>

/* No question has so many terminals or steps. */
enum { LONGEST = 1000 };

struct question {
    size_t tables, limit, has_end, length;
    unsigned terminals[LONGEST];
};

static inline void expect(int is_right)
{
    if (!is_right) {
        fflush(NULL);
        abort();
    }
}

#endif

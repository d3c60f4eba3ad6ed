/* What the programs check themselves by. A check that fails tells where on standard error, and of which row of a
 * table, and ends the program with status 1. */
#ifndef CHECK_H
#define CHECK_H

#include "trowelheath.h"

#include <stdio.h>
#include <stdlib.h>

/* The call is made. */
#define OK(call) check_status((call), TrB_SUCCESS, #call, __FILE__, __LINE__)

/* The call answers this status. */
#define ANSWERS(call, status) check_status((call), (status), #call, __FILE__, __LINE__)

/* The statement holds. */
#define HOLDS(statement) check_statement((statement), #statement, __FILE__, __LINE__)

/* The row of a table that is checked, or NULL. */
static const char *checked_row;

static inline void check_end(void)
{
    if (checked_row != NULL) {
        fprintf(stderr, "    of: %s\n", checked_row);
    }
    exit(EXIT_FAILURE);
}

static inline void check_status(TrB_Info info, TrB_Info wanted, const char *call, const char *file, int line)
{
    if (info != wanted) {
        fprintf(stderr, "%s:%d: %s answers %s (%d), and not %s. %s\n", file, line, call, TrB_name(info),
                (int)info, TrB_name(wanted), TrB_hint(info));
        check_end();
    }
}

static inline void check_statement(bool holds, const char *statement, const char *file, int line)
{
    if (!holds) {
        fprintf(stderr, "%s:%d: %s does not hold\n", file, line, statement);
        check_end();
    }
}

#endif

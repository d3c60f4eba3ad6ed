/* What a pass shows of itself without memory: how much it has learnt, knows and has settled, and the statuses of
 * objects. Whatever is refused memory leaves it, but for the status of the object that the call was on. */
#ifndef SHOWN_H
#define SHOWN_H

#include "check.h"
#include "trowelheath.h"

#include <stdbool.h>
#include <string.h>

/* How many vectors, and how many matrices, are looked at: those of the largest script, and the next. */
enum { LOOKED_AT = 6 };

typedef struct {
    TrB_Facts facts;
    TrB_Info matrices[LOOKED_AT], vectors[LOOKED_AT];
} Shown;

/* The last status of an object, and TrB_NO_VALUE where there is none. */
static inline TrB_Info last_of(TrB_Info info, TrB_Info last)
{
    return info == TrB_SUCCESS ? last : info;
}

static inline Shown shown(TrB_Pass *pass)
{
    Shown shown = {0};
    OK(TrB_facts(pass, &shown.facts));
    shown.facts.steps = shown.facts.made = 0; /* these are of the last call */
    for (uint32_t k = 0; k < LOOKED_AT; k++) {
        TrB_Info last = TrB_SUCCESS;
        TrB_Info info = TrB_Matrix_error(pass, &last, (TrB_Matrix){k});
        shown.matrices[k] = last_of(info, last);
        info = TrB_Vector_error(pass, &last, (TrB_Vector){k});
        shown.vectors[k] = last_of(info, last);
    }
    return shown;
}

static inline bool is_same_shown(const Shown *a, const Shown *b)
{
    return memcmp(a, b, sizeof *a) == 0;
}

#endif

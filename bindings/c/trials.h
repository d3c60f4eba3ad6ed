/* Trials of steps with little memory, as memory.h supplies it, and what they share. */
#ifndef TRIALS_H
#define TRIALS_H

#include "check.h"
#include "memory.h"
#include "trowelheath.h"

#include <stdio.h>

/* The bytes that steps have which are given some. */
enum { LITTLE = 65528 };

#define SOME ((Supply){BYTES, LITTLE})

/* Entries of a matrix of ones. */
enum { MOST_ONES = 1024 };

/* Takes the block of numbers for stores, which stays. */
static inline void take_numbers(void)
{
    TrB_Pass pass = TRB_PASS_INIT;
    OK(TrB_open(1, &pass, 1));
    TrB_free(&pass);
}

static inline TrB_Facts facts_of(TrB_Pass *pass)
{
    TrB_Facts facts;
    OK(TrB_facts(pass, &facts));
    return facts;
}

static inline void free_both(TrB_Pass *passes)
{
    TrB_free(&passes[0]);
    TrB_free(&passes[1]);
}

/* The pass reads this number. How many calls were made for that. */
static inline uint32_t reads_vector(TrB_Pass *pass, TrB_Vector v, TrB_Index i, uint64_t wanted)
{
    uint64_t x;
    OK(TrB_Vector_extractElement_UINT64(pass, &x, v, i));
    HOLDS(x == wanted);
    return facts_of(pass).made;
}

static inline uint32_t reads_matrix(TrB_Pass *pass, TrB_Matrix a, TrB_Index i, TrB_Index j, uint64_t wanted)
{
    uint64_t x;
    OK(TrB_Matrix_extractElement_UINT64(pass, &x, a, i, j));
    HOLDS(x == wanted);
    return facts_of(pass).made;
}

/* A matrix of ones at all places. */
static inline TrB_Matrix full_of_ones(TrB_Pass *pass, TrB_Index nrows, TrB_Index ncols)
{
    static TrB_Index rows[MOST_ONES], columns[MOST_ONES];
    static uint64_t ones[MOST_ONES];
    TrB_Matrix a;
    TrB_Index nvals = 0;
    HOLDS(nrows * ncols <= MOST_ONES);
    for (TrB_Index i = 0; i < nrows; i++) {
        for (TrB_Index j = 0; j < ncols; j++, nvals++) {
            rows[nvals] = i;
            columns[nvals] = j;
            ones[nvals] = 1;
        }
    }
    OK(TrB_Matrix_new(pass, &a, TrB_UINT64, nrows, ncols));
    OK(TrB_Matrix_build_UINT64(pass, a, rows, columns, ones, nvals, TrB_PLUS));
    return a;
}

/* One trial of a step, with this supply. Whether the step was refused, or came to less than with ample memory. */
typedef bool Trial(Supply supply);

/* Makes the trial with each supply of this way and the next ones, until nothing is refused. Each gives back all that it
 * took. */
static inline void sweep_from(Way first, const char *name, Trial *trial)
{
    char row[256];
    checked_row = row;
    fprintf(stderr, "%s:", name);
    for (Way way = first; way < WAYS; way++) {
        Supply supply = first_supply(way);
        unsigned trials = 0, refusals = 0;
        bool is_refused;
        do {
            snprintf(row, sizeof row, "%s, %s %zu", name, name_of_way(way), supply.number);
            size_t before = memory.held;
            is_refused = trial(supply);
            HOLDS(memory.held == before);
            trials++;
            refusals += is_refused;
        } while (go_on(&supply));
        HOLDS(refusals > 0 && !is_refused);
        fprintf(stderr, " %u of %u", refusals, trials);
    }
    checked_row = NULL;
    fprintf(stderr, "\n");
    printf("%s\n", name);
}

static inline void sweep(const char *name, Trial *trial)
{
    sweep_from(ONCE, name, trial);
}

#endif

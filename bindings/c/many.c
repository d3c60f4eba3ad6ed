/* A chain of 40,000 vectors, each with an entry, which goes on for many generations: one of them is changed, half of them
 * are freed, and the others are as they were. How many more there is place for falls and rises.
 *
 *     cc -std=c11 -O2 -o many many.c libgrb_c.a liblibc_c.a -lpthread
 */
#include "check.h"
#include "trowelheath.h"

#include <inttypes.h>
#include <stdio.h>

enum { ROOM = 4096, VECTORS = 40000, SETS = 10000, SIZE = 4 };

static TrB_Vector all[VECTORS];

/* What one vector stores at its last place. */
static uint64_t stored(TrB_Pass *pass, TrB_Vector v)
{
    uint64_t value = 0;
    OK(TrB_Vector_extractElement_UINT64(pass, &value, v, SIZE - 1));
    return value;
}

/* How many more objects there is place for in the next generation, before it takes a change. The vector is changed as
 * often as this one takes changes yet. */
static uint64_t left_in_next(TrB_Pass *pass, TrB_Vector v)
{
    TrB_Facts facts;
    uint64_t needed = 0, left = 0;
    bool moved = false;
    OK(TrB_facts(pass, &facts));
    for (uint32_t k = 0; k < facts.room_left; k++) {
        OK(TrB_Vector_setElement_UINT64(pass, v, k, 0));
    }
    OK(TrB_chain_go_on(pass, &needed, &moved));
    HOLDS(moved);
    OK(TrB_chain_objects_left(pass, &left));
    return left;
}

int main(void)
{
    TrB_Pass passes[2] = {TRB_PASS_INIT};
    uint64_t first = 0, left = 0;
    OK(TrB_chain_open(ROOM, passes, 2));
    OK(TrB_chain_objects_left(&passes[0], &first));
    printf("place for %" PRIu64 " vectors\n", first);
    for (uint64_t k = 0; k < VECTORS; k++) {
        OK(TrB_Vector_new(&passes[0], &all[k], TrB_UINT64, SIZE));
        OK(TrB_Vector_setElement_UINT64(&passes[0], all[k], k, SIZE - 1));
    }
    left = left_in_next(&passes[0], all[0]);
    printf("place for %" PRIu64 " more beside %d\n", left, VECTORS);
    HOLDS(left + VECTORS == first);

    /* More changes than two generations take, by the other pass, and all of another object are as before. */
    for (uint64_t k = 1; k <= SETS; k++) {
        OK(TrB_Vector_setElement_UINT64(&passes[1], all[0], k, SIZE - 1));
    }
    HOLDS(stored(&passes[0], all[0]) == SETS);
    for (uint64_t k = 1; k < VECTORS; k++) {
        HOLDS(stored(&passes[0], all[k]) == k);
    }

    for (size_t k = 1; k < VECTORS; k += 2) {
        OK(TrB_Vector_free(&passes[0], all[k]));
    }
    left = left_in_next(&passes[0], all[0]);
    printf("place for %" PRIu64 " more beside %d\n", left, VECTORS / 2);
    HOLDS(left + VECTORS / 2 == first);
    for (size_t k = 2; k < VECTORS; k += 2) {
        HOLDS(stored(&passes[1], all[k]) == k);
        ANSWERS(TrB_Vector_clear(&passes[1], all[k - 1]), TrB_UNINITIALIZED_OBJECT);
    }

    uint64_t generation = 0;
    OK(TrB_chain_generation(&passes[0], &generation));
    printf("generation %" PRIu64 "\n", generation);
    TrB_free(&passes[0]);
    TrB_free(&passes[1]);
    return 0;
}

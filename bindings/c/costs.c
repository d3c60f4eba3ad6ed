/* What calls cost that make nothing, by counts: what others left is looked at again where it is another one, a wait
 * for all looks at what changed, an adopt at what is new, and what is freed is let go.
 *
 *     cc -std=c11 -O2 -o costs costs.c libgrb_c.a liblibc_c.a -lpthread
 */
#include "check.h"
#include "trowelheath.h"

#include <stdio.h>
#include <stdlib.h>

/* A vector of so many tuples is dear to make: a pass leaves it to the others. */
enum { TUPLES = 40000, LARGE = 1000000, ROOM = 65536 };

/* Who makes, and who goes on from that. */
enum { P, Q, PASSES };

static TrB_Costs costs_of(TrB_Pass *pass)
{
    TrB_Costs costs;
    OK(TrB_costs(pass, &costs));
    return costs;
}

static uint64_t looks_of(TrB_Pass *pass)
{
    return costs_of(pass).looks;
}

/* Counts the entries of the vector, and how many calls were made for that. */
static uint32_t made_to_count(TrB_Pass *pass, TrB_Vector v, TrB_Index wanted)
{
    TrB_Index nvals;
    TrB_Facts facts;
    OK(TrB_Vector_nvals(pass, &nvals, v));
    HOLDS(nvals == wanted);
    OK(TrB_facts(pass, &facts));
    return facts.made;
}

/* A vector of so many tuples, in falling order, which nobody has made. */
static TrB_Vector built(TrB_Pass *pass, TrB_Index tuples)
{
    TrB_Vector v;
    TrB_Index *indices = malloc(tuples * sizeof *indices);
    uint64_t *values = malloc(tuples * sizeof *values);
    HOLDS(indices != NULL && values != NULL);
    for (TrB_Index k = 0; k < tuples; k++) {
        indices[k] = tuples - 1 - k;
        values[k] = k;
    }
    OK(TrB_Vector_new(pass, &v, TrB_UINT64, tuples));
    OK(TrB_Vector_build_UINT64(pass, v, indices, values, tuples, TrB_PLUS));
    free(indices);
    free(values);
    return v;
}

static void open_two(TrB_Pass *passes)
{
    for (int k = 0; k < PASSES; k++) {
        passes[k] = (TrB_Pass)TRB_PASS_INIT;
    }
    OK(TrB_open(ROOM, passes, PASSES));
}

static void end_two(TrB_Pass *passes)
{
    for (int k = 0; k < PASSES; k++) {
        TrB_free(&passes[k]);
    }
}

/* What another pass left is taken also where it is the second of as many calls, and after all results were let go;
 * and nobody looks at it twice, or at what it left itself. */
static void left(void)
{
    TrB_Pass passes[PASSES];
    TrB_Vector c, d, e, other;
    TrB_Index size;
    uint64_t looks;
    open_two(passes);
    c = built(&passes[P], TUPLES);
    d = built(&passes[P], TUPLES);
    e = built(&passes[P], TUPLES);
    OK(TrB_Vector_new(&passes[P], &other, TrB_UINT64, 8));
    OK(TrB_Vector_size(&passes[Q], &size, other));

    HOLDS(made_to_count(&passes[P], c, TUPLES) == 1);
    HOLDS(made_to_count(&passes[Q], c, TUPLES) == 0);
    looks = looks_of(&passes[P]);
    HOLDS(made_to_count(&passes[P], d, TUPLES) == 1);
    HOLDS(looks_of(&passes[P]) == looks);
    OK(TrB_Vector_setElement_UINT64(&passes[P], other, 1, 0));
    HOLDS(made_to_count(&passes[Q], d, TUPLES) == 0);
    looks = looks_of(&passes[Q]);
    OK(TrB_Vector_setElement_UINT64(&passes[P], other, 2, 1));
    HOLDS(made_to_count(&passes[Q], d, TUPLES) == 0);
    HOLDS(made_to_count(&passes[Q], other, 2) == 3);
    HOLDS(looks_of(&passes[Q]) == looks);

    OK(TrB_release(&passes[Q]));
    OK(TrB_Vector_setElement_UINT64(&passes[P], other, 3, 2));
    HOLDS(made_to_count(&passes[Q], c, TUPLES) == 0);
    HOLDS(made_to_count(&passes[Q], d, TUPLES) == 0);
    HOLDS(looks_of(&passes[Q]) > looks);
    HOLDS(made_to_count(&passes[Q], e, TUPLES) == 2);
    end_two(passes);
    puts("what another pass left is taken, and looked at once");
}

/* How much a wait for all looks at after one change, behind so many vectors that were freed. */
static uint64_t looks_of_wait(int freed)
{
    TrB_Pass pass = TRB_PASS_INIT;
    TrB_Vector v, gone;
    uint64_t looks;
    OK(TrB_open(ROOM, &pass, 1));
    OK(TrB_Vector_new(&pass, &v, TrB_UINT64, 8));
    for (int k = 0; k < freed; k++) {
        OK(TrB_Vector_new(&pass, &gone, TrB_UINT64, 8));
        OK(TrB_Vector_free(&pass, gone));
    }
    OK(TrB_Vector_wait(&pass, v, TrB_MATERIALIZE));
    OK(TrB_Vector_setElement_UINT64(&pass, v, 1, 0));
    looks = looks_of(&pass);
    OK(TrB_Vector_wait(&pass, v, TrB_MATERIALIZE));
    looks = looks_of(&pass) - looks;
    HOLDS(made_to_count(&pass, v, 1) == 0);
    TrB_free(&pass);
    return looks;
}

static void waits(void)
{
    uint64_t few = looks_of_wait(2000);
    HOLDS(few > 0 && few < 16);
    HOLDS(looks_of_wait(14000) == few);
    puts("a wait for all looks at what changed since the last one");
}

/* How much an adopt looks at that learns nothing, and one that finds one vector made, where so many calls are known. */
static void adopts_of(int calls, uint64_t *nothing, uint64_t *one)
{
    TrB_Pass passes[PASSES];
    TrB_Vector v, late;
    uint64_t looks;
    open_two(passes);
    OK(TrB_Vector_new(&passes[P], &late, TrB_UINT64, 8));
    OK(TrB_Vector_setElement_UINT64(&passes[P], late, 7, 7));
    OK(TrB_Vector_new(&passes[P], &v, TrB_UINT64, 8));
    for (int k = 3; k < calls; k++) {
        OK(TrB_Vector_setElement_UINT64(&passes[P], v, (uint64_t)k, (TrB_Index)k % 8));
    }
    HOLDS(made_to_count(&passes[P], v, 8) > 0);
    OK(TrB_adopt(&passes[Q], &passes[P]));
    looks = looks_of(&passes[Q]);
    OK(TrB_adopt(&passes[Q], &passes[P]));
    *nothing = looks_of(&passes[Q]) - looks;
    HOLDS(made_to_count(&passes[P], late, 1) == 2);
    looks = looks_of(&passes[Q]);
    OK(TrB_adopt(&passes[Q], &passes[P]));
    *one = looks_of(&passes[Q]) - looks;
    HOLDS(made_to_count(&passes[Q], late, 1) == 0);
    HOLDS(made_to_count(&passes[Q], v, 8) == 0);
    end_two(passes);
}

static void adopts(void)
{
    uint64_t nothing, one, nothing_of_more, one_of_more;
    adopts_of(300, &nothing, &one);
    adopts_of(3000, &nothing_of_more, &one_of_more);
    HOLDS(nothing_of_more == nothing);
    HOLDS(one_of_more <= one + 3000 / 64 + 1);
    puts("an adopt looks at what is new");
}

/* What is freed, cleared or overwritten is let go by who learns it, also what was left to the others. */
static void freed(void)
{
    TrB_Pass passes[PASSES];
    TrB_Vector large, small;
    open_two(passes);
    OK(TrB_Vector_new(&passes[P], &small, TrB_UINT64, 8));
    for (int how = 0; how < 3; how++) {
        large = built(&passes[P], LARGE);
        HOLDS(made_to_count(&passes[P], large, LARGE) > 0);
        HOLDS(made_to_count(&passes[Q], large, LARGE) == 0);
        HOLDS(costs_of(&passes[P]).entries >= LARGE && costs_of(&passes[Q]).entries >= LARGE);
        HOLDS(costs_of(&passes[P]).entries_left >= LARGE);
        if (how == 0) {
            OK(TrB_Vector_clear(&passes[P], large));
        } else if (how == 1) {
            TrB_Vector other = built(&passes[P], 8);
            OK(TrB_Vector_resize(&passes[P], other, LARGE));
            OK(TrB_Vector_apply(&passes[P], large, TrB_NO_VECTOR, TrB_NO_ACCUM, TrB_IDENTITY, other, TrB_DEFAULT));
        } else {
            OK(TrB_Vector_free(&passes[P], large));
        }
        OK(TrB_Vector_setElement_UINT64(&passes[P], small, 1, (TrB_Index)how));
        HOLDS(made_to_count(&passes[P], small, (TrB_Index)how + 1) > 0);
        HOLDS(made_to_count(&passes[Q], small, (TrB_Index)how + 1) > 0);
        HOLDS(costs_of(&passes[P]).entries < 100 && costs_of(&passes[Q]).entries < 100);
        HOLDS(costs_of(&passes[P]).entries_left < 100);
    }
    end_two(passes);
    puts("what is freed is let go");
}

int main(void)
{
    left();
    waits();
    adopts();
    freed();
    return 0;
}

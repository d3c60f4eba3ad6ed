/* What passes share: one prepares what is dear and tells how much is evaluated, another adopts what it
 * has evaluated and makes none of it anew, and one that drops it does.
 *
 *     cc -std=c11 -O2 -o sharing sharing.c libgrb_c.a liblibc_c.a -lpthread
 */
#include "check.h"
#include "trowelheath.h"

#include <inttypes.h>
#include <stdio.h>

enum { ROOM = 64, PASSES = 3, SETS = 40, MANY = 40000 };

/* The pass knows so many calls, and its last call evaluated so many. */
static void has_made(TrB_Pass *pass, uint32_t known, uint32_t made)
{
    TrB_Facts facts;
    OK(TrB_facts(pass, &facts));
    HOLDS(facts.known == known && facts.made == made);
}

/* The pass reads this number. */
static void reads(TrB_Pass *pass, TrB_Vector v, TrB_Index i, uint64_t wanted)
{
    uint64_t x;
    OK(TrB_Vector_extractElement_UINT64(pass, &x, v, i));
    HOLDS(x == wanted);
}

/* Before so many of the calls that the pass knows no answer makes one, when it has prepared what is dear. */
static void prepares(TrB_Pass *pass, uint32_t wanted)
{
    uint32_t evaluated;
    OK(TrB_prepare(pass, &evaluated));
    HOLDS(evaluated == wanted);
    printf("prepared: %" PRIu32 " calls\n", evaluated);
}

static void end(TrB_Pass *passes)
{
    for (size_t k = 0; k < PASSES; k++) {
        TrB_free(&passes[k]);
    }
}

/* A pass that adopts another makes nothing that the other has made; one that meets it makes all. */
static void adopt(void)
{
    TrB_Pass passes[PASSES] = {TRB_PASS_INIT};
    TrB_Vector v;
    OK(TrB_open(ROOM, passes, PASSES));
    OK(TrB_Vector_new(&passes[0], &v, TrB_UINT64, 2));
    for (size_t k = 0; k < SETS; k++) {
        OK(TrB_Vector_setElement_UINT64(&passes[0], v, 1, 0));
    }
    reads(&passes[0], v, 0, 1);
    has_made(&passes[0], SETS + 1, SETS + 1);

    OK(TrB_adopt(&passes[1], &passes[0]));
    has_made(&passes[1], SETS + 1, 0);
    reads(&passes[1], v, 0, 1);
    has_made(&passes[1], SETS + 1, 0);
    printf("after an adoption: nothing to make\n");

    OK(TrB_meet(&passes[2], &passes[0]));
    has_made(&passes[2], SETS + 1, 0);
    reads(&passes[2], v, 0, 1);
    has_made(&passes[2], SETS + 1, SETS + 1);
    printf("after a meeting: %d calls to make\n", SETS + 1);

    /* What is changed later is made by each. */
    OK(TrB_Vector_setElement_UINT64(&passes[1], v, 5, 0));
    reads(&passes[1], v, 0, 5);
    has_made(&passes[1], SETS + 2, 1);
    reads(&passes[0], v, 0, 5);
    has_made(&passes[0], SETS + 2, 1);
    end(passes);
}

/* What a load stores: a 1 at each of many places, from the first to the last and the other way. */
static TrB_Index places[MANY], backwards[MANY];
static uint64_t ones[MANY];

static void fill(void)
{
    for (size_t k = 0; k < MANY; k++) {
        places[k] = k;
        backwards[k] = MANY - 1 - k;
        ones[k] = 1;
    }
}

/* Dear calls are prepared, and with them all that objects need; cheap ones are left to reads. */
static void prepare(void)
{
    TrB_Pass passes[PASSES] = {TRB_PASS_INIT};
    TrB_Vector u, w;
    OK(TrB_open(ROOM, passes, PASSES));
    prepares(&passes[0], 0);

    /* Three calls, none of them dear. */
    OK(TrB_Vector_new(&passes[0], &u, TrB_UINT64, MANY));
    OK(TrB_Vector_new(&passes[0], &w, TrB_UINT64, MANY));
    OK(TrB_Vector_setElement_UINT64(&passes[0], w, 2, 7));
    prepares(&passes[0], 0);

    /* Two more: a build of places that rise, which shares them, and a dear operation, which needs it. */
    OK(TrB_Vector_build_UINT64(&passes[0], u, places, ones, MANY, TrB_PLUS));
    OK(TrB_Vector_eWiseAdd(&passes[0], w, TrB_NO_VECTOR, TrB_NO_ACCUM, TrB_PLUS, u, w, TrB_DEFAULT));
    prepares(&passes[0], 5);
    reads(&passes[0], w, 7, 3);
    has_made(&passes[0], 5, 0);

    /* Who adopts has them too. */
    OK(TrB_adopt(&passes[1], &passes[0]));
    prepares(&passes[1], 5);
    has_made(&passes[1], 5, 0);
    reads(&passes[1], w, 7, 3);
    has_made(&passes[1], 5, 0);

    /* Two cheap ones more are not prepared, until a wait has made them. */
    OK(TrB_Vector_setElement_UINT64(&passes[0], w, 9, 7));
    OK(TrB_Vector_removeElement(&passes[0], w, 8));
    prepares(&passes[0], 5);
    has_made(&passes[0], 7, 0);
    OK(TrB_Vector_wait(&passes[0], w, TrB_MATERIALIZE));
    has_made(&passes[0], 7, 2);
    prepares(&passes[0], 7);
    reads(&passes[0], w, 7, 9);
    end(passes);
}

/* A load of places that rise is shared, and not dear: it is left to reads, and only the call before it is made,
 * of which the build had to know that the vector is empty. One that has to be sorted is dear: who adopts it builds
 * nothing. */
static void load(void)
{
    TrB_Pass passes[PASSES] = {TRB_PASS_INIT};
    TrB_Vector u;
    OK(TrB_open(ROOM, passes, PASSES));
    OK(TrB_Vector_new(&passes[0], &u, TrB_UINT64, MANY));
    OK(TrB_Vector_build_UINT64(&passes[0], u, places, ones, MANY, TrB_PLUS));
    prepares(&passes[0], 1);
    OK(TrB_Vector_clear(&passes[0], u));
    OK(TrB_Vector_build_UINT64(&passes[0], u, backwards, ones, MANY, TrB_PLUS));
    prepares(&passes[0], 4);
    OK(TrB_adopt(&passes[1], &passes[0]));
    reads(&passes[1], u, 7, 1);
    has_made(&passes[1], 4, 0);
    end(passes);
}

/* A pass that is released makes anew what it is asked for, and one that adopted it does not. */
static void release(void)
{
    TrB_Pass passes[PASSES] = {TRB_PASS_INIT};
    TrB_Vector v;
    OK(TrB_open(ROOM, passes, PASSES));
    OK(TrB_Vector_new(&passes[0], &v, TrB_UINT64, 2));
    OK(TrB_Vector_setElement_UINT64(&passes[0], v, 1, 0));
    reads(&passes[0], v, 0, 1);
    has_made(&passes[0], 2, 2);
    OK(TrB_adopt(&passes[1], &passes[0]));

    OK(TrB_release(&passes[0]));
    has_made(&passes[0], 2, 0);
    reads(&passes[0], v, 0, 1);
    has_made(&passes[0], 2, 2);
    printf("after a release: 2 calls to make\n");
    reads(&passes[1], v, 0, 1);
    has_made(&passes[1], 2, 0);
    end(passes);
}

/* Where the other pass of a chain sits in a later generation, a pass goes there, and knows all that it knows. */
static void meet_in_chain(void)
{
    for (int adopts = 0; adopts < 2; adopts++) {
        TrB_Pass passes[PASSES] = {TRB_PASS_INIT};
        TrB_Pass *behind = &passes[0], *ahead = &passes[1];
        TrB_Vector v;
        TrB_Facts facts;
        uint64_t generation;
        OK(TrB_chain_open(SETS / 2, passes, PASSES));
        OK(TrB_Vector_new(ahead, &v, TrB_UINT64, 2));
        for (size_t k = 0; k < SETS; k++) {
            OK(TrB_Vector_setElement_UINT64(ahead, v, k, 0));
        }
        OK(TrB_meet(ahead, behind));
        OK(TrB_chain_generation(behind, &generation));
        HOLDS(generation == 0);
        OK(adopts ? TrB_adopt(behind, ahead) : TrB_meet(behind, ahead));
        OK(TrB_chain_generation(behind, &generation));
        HOLDS(generation == 2);
        OK(TrB_facts(ahead, &facts));
        has_made(behind, facts.known, 0);
        end(passes);
    }
}

int main(void)
{
    fill();
    adopt();
    prepare();
    load();
    release();
    meet_in_chain();
    return 0;
}

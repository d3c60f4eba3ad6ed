/* A branch and a successor begin with all that was entered before they were opened, by whatever pass: also where the
 * pass that opens them has not read, of an object that another pass made, and changed after.
 *
 *     cc -std=c11 -O2 -o newest newest.c libgrb_c.a liblibc_c.a -lpthread
 */
#include "check.h"
#include "trowelheath.h"

#include <inttypes.h>
#include <stdio.h>

/* A path of so many edges, of which the first half comes first. A generation of the chain has room for few. */
enum { EDGES = 18, HALF = 9, VERTICES = EDGES + 1, ROOM = 100, GENERATION = 8 };

/* The pass that opens other stores makes no other call. */
enum { OPENS, ENTERS, PASSES };

/* Adds the edges from one vertex to another one. */
static void add(TrB_Pass *pass, TrB_Matrix graph, TrB_Index from, TrB_Index to)
{
    for (TrB_Index k = from; k < to; k++) {
        OK(TrB_Matrix_setElement_UINT64(pass, graph, 1, k, k + 1));
    }
}

static void has(TrB_Pass *pass, TrB_Matrix graph, TrB_Index wanted)
{
    TrB_Index edges;
    OK(TrB_Matrix_nvals(pass, &edges, graph));
    HOLDS(edges == wanted);
}

/* A branch of the graph and of an empty vector: both have the number 0 there, and none has it here. */
static void branch_has(TrB_Pass *passes, TrB_Matrix graph, TrB_Vector empty, TrB_Index wanted)
{
    TrB_Pass own = TRB_PASS_INIT;
    TrB_Matrix there = {0};
    TrB_Vector empty_there = {0};
    TrB_Index size;
    uint64_t needed;
    OK(TrB_branch(&passes[OPENS], &needed, &graph, 1, &empty, 1, ROOM, &own, 1));
    has(&own, there, wanted);
    OK(TrB_Vector_size(&own, &size, empty_there));
    HOLDS(size == VERTICES);
    TrB_free(&own);
}

/* A successor, in which the graph has its number, and what is made there has another one. */
static void successor_has(TrB_Pass *passes, TrB_Matrix graph, TrB_Index wanted)
{
    TrB_Pass next = TRB_PASS_INIT;
    TrB_Matrix made;
    uint64_t needed;
    OK(TrB_succeed(&passes[OPENS], &needed, ROOM, &next, 1));
    OK(TrB_Matrix_new(&next, &made, TrB_UINT64, VERTICES, VERTICES));
    HOLDS(made.id == graph.id + 1);
    OK(TrB_Matrix_setElement_UINT64(&next, made, 99, 2, 2));
    has(&next, graph, wanted);
    has(&next, made, 1);
    TrB_free(&next);
}

int main(void)
{
    for (int is_chain = 0; is_chain < 2; is_chain++) {
        TrB_Pass passes[PASSES] = {TRB_PASS_INIT};
        TrB_Matrix gone, graph;
        TrB_Vector first, empty;
        uint64_t generation = 0;
        checked_row = is_chain ? "a chain" : "a store";
        OK(is_chain ? TrB_chain_open(GENERATION, passes, PASSES) : TrB_open(ROOM, passes, PASSES));
        OK(TrB_Matrix_new(&passes[ENTERS], &gone, TrB_UINT64, 1, 1));
        OK(TrB_Vector_new(&passes[ENTERS], &first, TrB_UINT64, 1));
        OK(TrB_Matrix_new(&passes[ENTERS], &graph, TrB_UINT64, VERTICES, VERTICES));
        OK(TrB_Vector_new(&passes[ENTERS], &empty, TrB_UINT64, VERTICES));
        OK(TrB_Matrix_free(&passes[ENTERS], gone));

        for (TrB_Index from = 0; from < EDGES; from += HALF) {
            add(&passes[ENTERS], graph, from, from + HALF);
            branch_has(passes, graph, empty, from + HALF);
            if (!is_chain) {
                successor_has(passes, graph, from + HALF);
            }
            printf("%s: %" PRIu64 " edges\n", checked_row, from + HALF);
        }
        if (is_chain) {
            OK(TrB_chain_generation(&passes[OPENS], &generation));
            HOLDS(generation > 0);
        }
        for (size_t k = 0; k < PASSES; k++) {
            TrB_free(&passes[k]);
        }
    }
    return 0;
}

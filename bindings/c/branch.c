/* A search in a branch: it reads one moment of a graph that others change meanwhile, and its result comes back by
 * one call.
 *
 *     cc -std=c11 -O2 -o branch branch.c libgrb_c.a liblibc_c.a -lpthread
 */
#include "check.h"
#include "trowelheath.h"

#include <inttypes.h>
#include <stdio.h>

enum { VERTICES = 6, EDGES = 5, ROOM = 40 };

/* A path from the first vertex to the last. */
static const TrB_Index from[EDGES] = {0, 1, 2, 3, 4}, to[EDGES] = {1, 2, 3, 4, 5};
static const bool is_edge[EDGES] = {true, true, true, true, true};

/* How many steps each vertex is from the first one, 1 of its own. The graph has the number 0 there. */
static TrB_Vector search(TrB_Pass *own)
{
    TrB_Matrix graph = {0};
    TrB_Vector levels, reached;
    OK(TrB_Vector_new(own, &levels, TrB_UINT64, VERTICES));
    OK(TrB_Vector_new(own, &reached, TrB_BOOL, VERTICES));
    OK(TrB_Vector_setElement_BOOL(own, reached, true, 0));
    for (uint64_t level = 1; level <= VERTICES; level++) {
        TrB_Index indices[VERTICES];
        bool values[VERTICES];
        TrB_Index count = VERTICES;
        OK(TrB_Vector_extractTuples_BOOL(own, indices, values, &count, reached));
        for (TrB_Index k = 0; k < count; k++) {
            OK(TrB_Vector_setElement_UINT64(own, levels, level, indices[k]));
        }
        OK(TrB_vxm(own, reached, levels, TrB_NO_ACCUM, TrB_LOR_LAND, reached, graph,
                   TrB_REPLACE | TrB_COMP | TrB_STRUCTURE));
    }
    return levels;
}

int main(void)
{
    TrB_Pass pass = TRB_PASS_INIT, own = TRB_PASS_INIT;
    TrB_Matrix graph, gone;
    TrB_Vector levels;
    TrB_Facts before, after;
    uint64_t needed = 0;
    OK(TrB_open(10, &pass, 1));
    OK(TrB_Matrix_new(&pass, &gone, TrB_BOOL, 1, 1));
    OK(TrB_Matrix_free(&pass, gone));
    OK(TrB_Matrix_new(&pass, &graph, TrB_BOOL, VERTICES, VERTICES));
    OK(TrB_Matrix_build_BOOL(&pass, graph, from, to, is_edge, EDGES, TrB_LOR));
    OK(TrB_Vector_new(&pass, &levels, TrB_UINT64, VERTICES));

    /* The branch begins. Then the graph loses an edge, which the branch keeps. */
    OK(TrB_branch(&pass, &needed, &graph, 1, NULL, 0, ROOM, &own, 1));
    OK(TrB_facts(&own, &before));
    printf("the graph takes %" PRIu32 " changes\n", before.known);
    HOLDS(before.room_left == ROOM);
    OK(TrB_Matrix_removeElement(&pass, graph, 2, 3));
    TrB_Vector found = search(&own);
    OK(TrB_facts(&own, &after));
    printf("the search took %" PRIu32 " changes of the branch\n", before.room_left - after.room_left);

    /* One change of this store brings the result back. */
    OK(TrB_facts(&pass, &before));
    ANSWERS(TrB_Vector_build_from(&pass, levels, &pass, found), TrB_INVALID_VALUE);
    OK(TrB_Vector_build_from(&pass, levels, &own, found));
    OK(TrB_facts(&pass, &after));
    HOLDS(after.room_left + 1 == before.room_left);
    TrB_free(&own);
    for (TrB_Index k = 0; k < VERTICES; k++) {
        uint64_t level;
        OK(TrB_Vector_extractElement_UINT64(&pass, &level, levels, k));
        printf("vertex %" PRIu64 " has level %" PRIu64 "\n", k, level);
    }
    TrB_Index edges;
    OK(TrB_Matrix_nvals(&pass, &edges, graph));
    printf("%" PRIu64 " edges are left\n", edges);
    TrB_free(&pass);
    return 0;
}

/* A store of little room takes the edges of a graph. Each time it is full, a successor goes on.
 *
 *     cc -std=c11 -O2 -o succeed succeed.c libgrb_c.a liblibc_c.a -lpthread
 */
#include "check.h"
#include "graph.h"
#include "trowelheath.h"

#include <inttypes.h>
#include <stdio.h>

enum { ROOM = 100, PASSES = 2, EDGES = 500 };

static TrB_Index from[EDGES], to[EDGES];
static uint64_t weight[EDGES];
static Adjacency is_edge;

/* Puts the passes of a successor in place of those of a full store, which ends. */
static void go_on(TrB_Pass *passes, TrB_Matrix graph)
{
    static TrB_Pass next[PASSES] = {TRB_PASS_INIT};
    bool full = false;
    TrB_Index edges;
    uint64_t needed = 0;
    TrB_Facts facts;
    TrB_Info last;

    OK(TrB_Matrix_nvals(&passes[0], &edges, graph));
    OK(TrB_is_full(&passes[0], &full));
    HOLDS(full);

    /* What makes the objects takes none of its room. */
    OK(TrB_succeed(&passes[0], &needed, ROOM, next, PASSES));
    OK(TrB_facts(&next[0], &facts));
    printf("full with %" PRIu64 " edges; a successor begins with %" PRIu32 " changes\n", edges, facts.known);
    HOLDS(facts.room_left == ROOM);

    /* The new passes see the same graph, but no object has a status yet. The old store goes on to answer. */
    TrB_Index there;
    ANSWERS(TrB_Matrix_error(&next[1], &last, graph), TrB_NO_VALUE);
    OK(TrB_Matrix_nvals(&next[1], &there, graph));
    HOLDS(there == edges);
    ANSWERS(TrB_Matrix_setElement_UINT64(&passes[1], graph, 0, 0, 0), TrB_ORDER_FULL);
    OK(TrB_Matrix_nvals(&passes[1], &there, graph));
    HOLDS(there == edges);

    /* A pass is moved, and never copied: what it was moved from is none. */
    for (size_t k = 0; k < PASSES; k++) {
        TrB_free(&passes[k]);
        passes[k] = next[k];
        next[k] = (TrB_Pass)TRB_PASS_INIT;
    }
}

/* Stores an edge, in a successor where the store is full. */
static void add(TrB_Pass *passes, TrB_Matrix graph, size_t k)
{
    TrB_Pass *pass = &passes[k % PASSES];
    TrB_Info info = TrB_Matrix_setElement_UINT64(pass, graph, weight[k], from[k], to[k]);
    if (info == TrB_ORDER_FULL) {
        go_on(passes, graph);
        info = TrB_Matrix_setElement_UINT64(pass, graph, weight[k], from[k], to[k]);
    }
    OK(info);
}

/* The weights of all edges, each as it was stored last. */
static uint64_t total_by_hand(void)
{
    uint64_t total = 0;
    for (size_t k = 0; k < EDGES; k++) {
        bool is_last = true;
        for (size_t later = k + 1; later < EDGES; later++) {
            is_last = is_last && (from[later] != from[k] || to[later] != to[k]);
        }
        total += is_last ? weight[k] : 0;
    }
    return total;
}

int main(void)
{
    draw_edges(8, EDGES, from, to, weight);

    TrB_Pass passes[PASSES] = {TRB_PASS_INIT};
    TrB_Matrix graph, gone, made;
    OK(TrB_open(ROOM, passes, PASSES));
    OK(TrB_Matrix_new(&passes[0], &graph, TrB_UINT64, VERTICES, VERTICES));
    OK(TrB_Matrix_new(&passes[0], &gone, TrB_BOOL, 1, 1));
    OK(TrB_Matrix_free(&passes[0], gone));
    for (size_t k = 0; k < EDGES; k++) {
        add(passes, graph, k);
    }

    TrB_Index edges;
    uint64_t total;
    OK(TrB_Matrix_nvals(&passes[0], &edges, graph));
    OK(TrB_Matrix_reduce_UINT64(&passes[0], &total, TrB_PLUS, graph));
    printf("%" PRIu64 " edges of weight %" PRIu64 " in the last store\n", edges, total);
    HOLDS(edges == mark_edges(is_edge, EDGES, from, to));
    HOLDS(total == total_by_hand());

    /* A freed matrix stays freed, and its number is not given again. */
    ANSWERS(TrB_Matrix_nvals(&passes[0], &edges, gone), TrB_UNINITIALIZED_OBJECT);
    OK(TrB_Matrix_new(&passes[0], &made, TrB_UINT64, 1, 1));
    printf("the next matrix has the number %" PRIu32 "\n", made.id);
    HOLDS(made.id == gone.id + 1);

    for (size_t k = 0; k < PASSES; k++) {
        TrB_free(&passes[k]);
    }
    return 0;
}

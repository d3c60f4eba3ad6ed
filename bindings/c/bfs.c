/* Breadth-first search: the level of each vertex by products, and once more by a queue.
 *
 *     cc -std=c11 -O2 -o bfs bfs.c libgrb_c.a liblibc_c.a -lpthread
 */
#include "check.h"
#include "graph.h"
#include "trowelheath.h"

#include <inttypes.h>
#include <stdio.h>

enum { EDGES = 2000, START = 0, UNREACHED = -1 };

static TrB_Index from[EDGES], to[EDGES];
static uint64_t weight[EDGES];
static bool is_true[EDGES];
static Adjacency is_edge;
static int level[VERTICES], level_by_hand[VERTICES];

/* Writes the level of each vertex that is reached from the start, and answers how many levels there are.
 * Each takes two changes of the room. */
static int search(TrB_Pass *pass, TrB_Matrix graph)
{
    static TrB_Index vertices[VERTICES];
    static bool values[VERTICES];
    TrB_Vector front, seen;
    OK(TrB_Vector_new(pass, &front, TrB_BOOL, VERTICES));
    OK(TrB_Vector_setElement_BOOL(pass, front, true, START));
    OK(TrB_Vector_new(pass, &seen, TrB_BOOL, VERTICES));
    for (int depth = 0;; depth++) {
        TrB_Index nvals = VERTICES;
        OK(TrB_Vector_extractTuples_BOOL(pass, vertices, values, &nvals, front));
        if (nvals == 0) {
            return depth;
        }
        for (TrB_Index k = 0; k < nvals; k++) {
            level[vertices[k]] = depth;
        }
        /* The next front: where edges lead from this one, but not to what was seen. */
        OK(TrB_Vector_eWiseAdd(pass, seen, TrB_NO_VECTOR, TrB_NO_ACCUM, TrB_LOR, seen, front, TrB_DEFAULT));
        OK(TrB_vxm(pass, front, seen, TrB_NO_ACCUM, TrB_LOR_LAND, front, graph,
                   TrB_STRUCTURE | TrB_COMP | TrB_REPLACE));
    }
}

static void search_by_hand(void)
{
    static size_t queue[VERTICES];
    size_t first = 0, end = 0;
    level_by_hand[START] = 0;
    queue[end++] = START;
    while (first < end) {
        size_t i = queue[first++];
        for (size_t j = 0; j < VERTICES; j++) {
            if (is_edge[i][j] && level_by_hand[j] == UNREACHED) {
                level_by_hand[j] = level_by_hand[i] + 1;
                queue[end++] = j;
            }
        }
    }
}

int main(void)
{
    draw_edges(5, EDGES, from, to, weight);
    for (size_t k = 0; k < EDGES; k++) {
        is_true[k] = true;
    }
    for (size_t i = 0; i < VERTICES; i++) {
        level[i] = level_by_hand[i] = UNREACHED;
    }

    TrB_Pass pass = TRB_PASS_INIT;
    TrB_Matrix graph;
    TrB_Index edges;
    OK(TrB_open(2 * VERTICES + 8, &pass, 1));
    OK(TrB_Matrix_new(&pass, &graph, TrB_BOOL, VERTICES, VERTICES));
    OK(TrB_Matrix_build_BOOL(&pass, graph, from, to, is_true, EDGES, TrB_LOR));
    OK(TrB_Matrix_nvals(&pass, &edges, graph));
    int depth = search(&pass, graph);
    TrB_free(&pass);

    HOLDS(edges == mark_edges(is_edge, EDGES, from, to));
    search_by_hand();
    for (size_t i = 0; i < VERTICES; i++) {
        HOLDS(level[i] == level_by_hand[i]);
    }
    printf("%d vertices, %" PRIu64 " edges, from vertex %d\n", VERTICES, edges, START);
    for (int wanted = 0; wanted < depth; wanted++) {
        int count = 0;
        for (size_t i = 0; i < VERTICES; i++) {
            count += level[i] == wanted;
        }
        printf("level %d: %d\n", wanted, count);
    }
    return 0;
}

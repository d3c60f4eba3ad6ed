/* Counts the triangles of a graph by a product inside a mask, and once more by hand.
 *
 *     cc -std=c11 -O2 -o triangles triangles.c libgrb_c.a liblibc_c.a -lpthread
 */
#include "check.h"
#include "graph.h"
#include "trowelheath.h"

#include <inttypes.h>
#include <stdio.h>

enum { EDGES = 8000 };

static TrB_Index from[EDGES], to[EDGES];
static uint64_t weight[EDGES], one[EDGES];
static Adjacency is_edge;

/* L has 1 at each edge, below the diagonal. L * L has at (i,j) the number of paths from i over some k
 * down to j; where (i,j) is an edge too, each is a triangle, and is counted once. */
static uint64_t triangles_by_product(TrB_Pass *pass, TrB_Index *edges)
{
    TrB_Matrix l, t;
    uint64_t triangles;
    OK(TrB_Matrix_new(pass, &l, TrB_UINT64, VERTICES, VERTICES));
    OK(TrB_Matrix_build_UINT64(pass, l, from, to, one, EDGES, TrB_MAX));
    OK(TrB_Matrix_nvals(pass, edges, l));
    OK(TrB_Matrix_new(pass, &t, TrB_UINT64, VERTICES, VERTICES));
    OK(TrB_mxm(pass, t, l, TrB_NO_ACCUM, TrB_PLUS_TIMES, l, l, TrB_STRUCTURE));
    OK(TrB_Matrix_reduce_UINT64(pass, &triangles, TrB_PLUS, t));
    return triangles;
}

int main(void)
{
    draw_edges(1, EDGES, from, to, weight);
    put_below_diagonal(EDGES, from, to);
    for (size_t k = 0; k < EDGES; k++) {
        one[k] = 1;
    }

    TrB_Pass pass = TRB_PASS_INIT;
    OK(TrB_open(16, &pass, 1));
    TrB_Index edges;
    uint64_t triangles = triangles_by_product(&pass, &edges);
    TrB_free(&pass);

    HOLDS(edges == mark_edges(is_edge, EDGES, from, to));
    HOLDS(triangles == triangles_by_hand(is_edge));
    printf("%d vertices, %" PRIu64 " edges\n", VERTICES, edges);
    printf("%" PRIu64 " triangles\n", triangles);
    return 0;
}

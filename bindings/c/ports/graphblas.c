/* Three algorithms as LAGraph has them, by GraphBLAS.h: what trowelheath.c was ported from.
 *
 *     cc -std=c11 -O2 -o graphblas graphblas.c -lgraphblas
 */
#include "edges.h"

#include <GraphBLAS.h>
#include <inttypes.h>
#include <stdio.h>
#include <stdlib.h>

#define OK(call) do { if ((call) < 0) { fprintf(stderr, "%s is refused\n", #call); exit(1); } } while (0)

/* The level and the parent of each vertex that is reached from the source. */
static void breadth_first_search(GrB_Vector *level, GrB_Vector *parent, GrB_Matrix A, GrB_Index source)
{
    GrB_Index n, nvals;
    GrB_Vector q;
    OK(GrB_Matrix_nrows(&n, A));
    OK(GrB_Vector_new(level, GrB_UINT64, n));
    OK(GrB_Vector_new(parent, GrB_UINT64, n));
    OK(GrB_Vector_new(&q, GrB_UINT64, n));
    OK(GrB_Vector_setElement_UINT64(q, source, source));
    OK(GrB_Vector_setElement_UINT64(*parent, source, source));
    for (uint64_t depth = 0;; depth++) {
        OK(GrB_Vector_assign_UINT64(*level, q, GrB_NULL, depth, GrB_ALL, n, GrB_DESC_S));
        OK(GrB_vxm(q, *parent, GrB_NULL, GrB_MIN_FIRST_SEMIRING_UINT64, q, A, GrB_DESC_RSC));
        OK(GrB_Vector_nvals(&nvals, q));
        if (nvals == 0) {
            break;
        }
        OK(GrB_Vector_assign(*parent, q, GrB_NULL, q, GrB_ALL, n, GrB_DESC_S));
        OK(GrB_Vector_apply_IndexOp_INT64(q, GrB_NULL, GrB_NULL, GrB_ROWINDEX_INT64, q, 0, GrB_NULL));
    }
    OK(GrB_Vector_free(&q));
}

/* The number of triangles, where A stores both ways of each edge. */
static uint64_t triangle_count(GrB_Matrix A)
{
    GrB_Index n;
    GrB_Matrix L, U, C;
    uint64_t triangles = 0;
    OK(GrB_Matrix_nrows(&n, A));
    OK(GrB_Matrix_new(&L, GrB_UINT64, n, n));
    OK(GrB_Matrix_new(&U, GrB_UINT64, n, n));
    OK(GrB_Matrix_new(&C, GrB_UINT64, n, n));
    OK(GrB_Matrix_select_INT64(L, GrB_NULL, GrB_NULL, GrB_TRIL, A, -1, GrB_NULL));
    OK(GrB_Matrix_select_INT64(U, GrB_NULL, GrB_NULL, GrB_TRIU, A, 1, GrB_NULL));
    OK(GrB_Matrix_apply_BinaryOp2nd_UINT64(L, GrB_NULL, GrB_NULL, GrB_SECOND_UINT64, L, 1, GrB_NULL));
    OK(GrB_Matrix_apply_BinaryOp2nd_UINT64(U, GrB_NULL, GrB_NULL, GrB_SECOND_UINT64, U, 1, GrB_NULL));
    OK(GrB_mxm(C, L, GrB_NULL, GrB_PLUS_TIMES_SEMIRING_UINT64, L, U, GrB_DESC_ST1));
    OK(GrB_Matrix_reduce_UINT64(&triangles, GrB_NULL, GrB_PLUS_MONOID_UINT64, C, GrB_NULL));
    OK(GrB_Matrix_free(&L));
    OK(GrB_Matrix_free(&U));
    OK(GrB_Matrix_free(&C));
    return triangles;
}

/* The length of a shortest path to each vertex that is reached from the source, by Bellman and Ford. */
static void shortest_paths(GrB_Vector *distance, GrB_Matrix A, GrB_Index source)
{
    GrB_Index n;
    GrB_Vector before, differs;
    bool is_changed = true;
    OK(GrB_Matrix_nrows(&n, A));
    OK(GrB_Vector_new(distance, GrB_UINT64, n));
    OK(GrB_Vector_new(&differs, GrB_BOOL, n));
    OK(GrB_Vector_setElement_UINT64(*distance, 0, source));
    while (is_changed) {
        GrB_Index nvals, nvals_before;
        OK(GrB_Vector_dup(&before, *distance));
        OK(GrB_vxm(*distance, GrB_NULL, GrB_MIN_UINT64, GrB_MIN_PLUS_SEMIRING_UINT64, *distance, A, GrB_NULL));
        OK(GrB_Vector_nvals(&nvals, *distance));
        OK(GrB_Vector_nvals(&nvals_before, before));
        OK(GrB_Vector_eWiseMult_BinaryOp(differs, GrB_NULL, GrB_NULL, GrB_NE_UINT64, *distance, before, GrB_NULL));
        OK(GrB_Vector_reduce_BOOL(&is_changed, GrB_NULL, GrB_LOR_MONOID_BOOL, differs, GrB_NULL));
        is_changed = is_changed || nvals != nvals_before;
        OK(GrB_Vector_free(&before));
    }
    OK(GrB_Vector_free(&differs));
}

/* How many entries a vector has, and the sum of them. */
static void show(const char *name, GrB_Vector v)
{
    GrB_Index nvals;
    uint64_t sum = 0;
    OK(GrB_Vector_nvals(&nvals, v));
    OK(GrB_Vector_reduce_UINT64(&sum, GrB_NULL, GrB_PLUS_MONOID_UINT64, v, GrB_NULL));
    printf("%s: %" PRIu64 " entries, sum %" PRIu64 "\n", name, (uint64_t)nvals, sum);
}

int main(void)
{
    static uint64_t from[2 * EDGES], to[2 * EDGES], length[2 * EDGES];
    GrB_Matrix A;
    GrB_Vector level, parent, distance;
    draw_edges(from, to, length);
    OK(GrB_init(GrB_NONBLOCKING));
    OK(GrB_Matrix_new(&A, GrB_UINT64, VERTICES, VERTICES));
    OK(GrB_Matrix_build_UINT64(A, from, to, length, 2 * EDGES, GrB_MIN_UINT64));
    breadth_first_search(&level, &parent, A, 0);
    show("levels", level);
    show("parents", parent);
    printf("triangles: %" PRIu64 "\n", triangle_count(A));
    shortest_paths(&distance, A, 0);
    show("distances", distance);
    OK(GrB_Vector_free(&level));
    OK(GrB_Vector_free(&parent));
    OK(GrB_Vector_free(&distance));
    OK(GrB_Matrix_free(&A));
    OK(GrB_finalize());
    return 0;
}

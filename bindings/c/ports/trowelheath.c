/* Three algorithms as LAGraph has them, ported from graphblas.c. README.md tells what had to change.
 *
 *     cc -std=c11 -O2 -I.. -o trowelheath trowelheath.c libgrb_c.a liblibc_c.a -lpthread
 */
#include "edges.h"
#include "trowelheath.h"

#include <inttypes.h>
#include <stdio.h>
#include <stdlib.h>

#define OK(call) do { if ((call) < 0) { fprintf(stderr, "%s is refused\n", #call); exit(1); } } while (0)

/* A new full vector that stores its index, or this value, at each index. */
static void fill(TrB_Pass *pass, TrB_Vector *v, TrB_Index n, bool is_index, uint64_t value)
{
    TrB_Index *indices = malloc(n * sizeof *indices);
    uint64_t *values = malloc(n * sizeof *values);
    if (indices == NULL || values == NULL) {
        exit(1);
    }
    for (TrB_Index i = 0; i < n; i++) {
        indices[i] = i;
        values[i] = is_index ? i : value;
    }
    OK(TrB_Vector_new(pass, v, TrB_UINT64, n));
    OK(TrB_Vector_build_UINT64(pass, *v, indices, values, n, TrB_PLUS));
    free(indices);
    free(values);
}

/* The level and the parent of each vertex that is reached from the source. */
static void breadth_first_search(TrB_Pass *pass, TrB_Vector *level, TrB_Vector *parent, TrB_Matrix A, TrB_Index source)
{
    TrB_Index n, ncols, nvals;
    TrB_Vector q, names, depth, one;
    OK(TrB_Matrix_size(pass, &n, &ncols, A));
    OK(TrB_Vector_new(pass, level, TrB_UINT64, n));
    OK(TrB_Vector_new(pass, parent, TrB_UINT64, n));
    OK(TrB_Vector_new(pass, &q, TrB_UINT64, n));
    fill(pass, &names, n, true, 0);
    fill(pass, &depth, n, false, 0);
    fill(pass, &one, n, false, 1);
    OK(TrB_Vector_setElement_UINT64(pass, q, source, source));
    OK(TrB_Vector_setElement_UINT64(pass, *parent, source, source));
    for (;;) {
        OK(TrB_Vector_eWiseMult(pass, *level, q, TrB_NO_ACCUM, TrB_FIRST, depth, depth, TrB_STRUCTURE));
        OK(TrB_vxm(pass, q, *parent, TrB_NO_ACCUM, TrB_MIN_FIRST, q, A, TrB_REPLACE | TrB_STRUCTURE | TrB_COMP));
        OK(TrB_Vector_nvals(pass, &nvals, q));
        if (nvals == 0) {
            break;
        }
        OK(TrB_Vector_eWiseMult(pass, *parent, q, TrB_NO_ACCUM, TrB_FIRST, q, q, TrB_STRUCTURE));
        OK(TrB_Vector_eWiseMult(pass, q, TrB_NO_VECTOR, TrB_NO_ACCUM, TrB_SECOND, q, names, TrB_DEFAULT));
        OK(TrB_Vector_eWiseMult(pass, depth, TrB_NO_VECTOR, TrB_NO_ACCUM, TrB_PLUS, depth, one, TrB_DEFAULT));
    }
    OK(TrB_Vector_free(pass, q));
    OK(TrB_Vector_free(pass, names));
    OK(TrB_Vector_free(pass, depth));
    OK(TrB_Vector_free(pass, one));
}

/* The number of triangles, where A stores both ways of each edge. */
static uint64_t triangle_count(TrB_Pass *pass, TrB_Matrix A)
{
    TrB_Index n, ncols;
    TrB_Matrix L, U, C;
    uint64_t triangles = 0;
    OK(TrB_Matrix_size(pass, &n, &ncols, A));
    OK(TrB_Matrix_new(pass, &L, TrB_UINT64, n, n));
    OK(TrB_Matrix_new(pass, &U, TrB_UINT64, n, n));
    OK(TrB_Matrix_new(pass, &C, TrB_UINT64, n, n));
    OK(TrB_Matrix_select_INT64(pass, L, TrB_NO_MATRIX, TrB_NO_ACCUM, TrB_TRIL, A, -1, TrB_DEFAULT));
    OK(TrB_Matrix_select_INT64(pass, U, TrB_NO_MATRIX, TrB_NO_ACCUM, TrB_TRIU, A, 1, TrB_DEFAULT));
    OK(TrB_Matrix_apply_BinaryOp2nd_UINT64(pass, L, TrB_NO_MATRIX, TrB_NO_ACCUM, TrB_SECOND, L, 1, TrB_DEFAULT));
    OK(TrB_Matrix_apply_BinaryOp2nd_UINT64(pass, U, TrB_NO_MATRIX, TrB_NO_ACCUM, TrB_SECOND, U, 1, TrB_DEFAULT));
    OK(TrB_mxm(pass, C, L, TrB_NO_ACCUM, TrB_PLUS_TIMES, L, U, TrB_STRUCTURE | TrB_TRAN1));
    OK(TrB_Matrix_reduce_UINT64(pass, &triangles, TrB_PLUS, C));
    OK(TrB_Matrix_free(pass, L));
    OK(TrB_Matrix_free(pass, U));
    OK(TrB_Matrix_free(pass, C));
    return triangles;
}

/* The length of a shortest path to each vertex that is reached from the source, by Bellman and Ford. */
static void shortest_paths(TrB_Pass *pass, TrB_Vector *distance, TrB_Matrix A, TrB_Index source)
{
    TrB_Index n, ncols;
    TrB_Vector before, differs;
    bool is_changed = true;
    OK(TrB_Matrix_size(pass, &n, &ncols, A));
    OK(TrB_Vector_new(pass, distance, TrB_UINT64, n));
    OK(TrB_Vector_new(pass, &differs, TrB_UINT64, n));
    OK(TrB_Vector_setElement_UINT64(pass, *distance, 0, source));
    while (is_changed) {
        TrB_Index nvals, nvals_before;
        uint64_t largest;
        OK(TrB_Vector_dup(pass, &before, *distance));
        OK(TrB_vxm(pass, *distance, TrB_NO_VECTOR, TrB_MIN, TrB_MIN_PLUS, *distance, A, TrB_DEFAULT));
        OK(TrB_Vector_nvals(pass, &nvals, *distance));
        OK(TrB_Vector_nvals(pass, &nvals_before, before));
        OK(TrB_Vector_eWiseMult(pass, differs, TrB_NO_VECTOR, TrB_NO_ACCUM, TrB_MINUS, *distance, before, TrB_DEFAULT));
        OK(TrB_Vector_reduce_UINT64(pass, &largest, TrB_MAX, differs));
        is_changed = largest != 0 || nvals != nvals_before;
        OK(TrB_Vector_free(pass, before));
    }
    OK(TrB_Vector_free(pass, differs));
}

/* How many entries a vector has, and the sum of them. */
static void show(TrB_Pass *pass, const char *name, TrB_Vector v)
{
    TrB_Index nvals;
    uint64_t sum = 0;
    OK(TrB_Vector_nvals(pass, &nvals, v));
    OK(TrB_Vector_reduce_UINT64(pass, &sum, TrB_PLUS, v));
    printf("%s: %" PRIu64 " entries, sum %" PRIu64 "\n", name, (uint64_t)nvals, sum);
}

int main(void)
{
    static uint64_t from[2 * EDGES], to[2 * EDGES], length[2 * EDGES];
    TrB_Pass opened = TRB_PASS_INIT, *pass = &opened;
    TrB_Matrix A;
    TrB_Vector level, parent, distance;
    draw_edges(from, to, length);
    if (TrB_open(1000, pass, 1) != TrB_SUCCESS) {
        return 1;
    }
    OK(TrB_Matrix_new(pass, &A, TrB_UINT64, VERTICES, VERTICES));
    OK(TrB_Matrix_build_UINT64(pass, A, from, to, length, 2 * EDGES, TrB_MIN));
    breadth_first_search(pass, &level, &parent, A, 0);
    show(pass, "levels", level);
    show(pass, "parents", parent);
    printf("triangles: %" PRIu64 "\n", triangle_count(pass, A));
    shortest_paths(pass, &distance, A, 0);
    show(pass, "distances", distance);
    TrB_free(pass);
    return 0;
}

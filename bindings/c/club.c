/* Zachary's karate club: its triangles, its trusses, who has many ties, and who is two steps from a member and not
 * tied to it. Each is found by filters: of places, of values, and by a mask.
 *
 *     cc -std=c11 -O2 -o club club.c libgrb_c.a liblibc_c.a -lpthread
 */
#include "check.h"
#include "trowelheath.h"

#include <inttypes.h>
#include <stdio.h>

enum { MEMBERS = 34, TIES = 78, MANY = 9, MEMBER = 16 };

/* Two members for each tie. */
static const TrB_Index ties[TIES][2] = {
    {0, 1}, {0, 2}, {0, 3}, {0, 4}, {0, 5}, {0, 6}, {0, 7}, {0, 8}, {0, 10}, {0, 11}, {0, 12}, {0, 13}, {0, 17},
    {0, 19}, {0, 21}, {0, 31}, {1, 2}, {1, 3}, {1, 7}, {1, 13}, {1, 17}, {1, 19}, {1, 21}, {1, 30}, {2, 3}, {2, 7},
    {2, 8}, {2, 9}, {2, 13}, {2, 27}, {2, 28}, {2, 32}, {3, 7}, {3, 12}, {3, 13}, {4, 6}, {4, 10}, {5, 6}, {5, 10},
    {5, 16}, {6, 16}, {8, 30}, {8, 32}, {8, 33}, {9, 33}, {13, 33}, {14, 32}, {14, 33}, {15, 32}, {15, 33},
    {18, 32}, {18, 33}, {19, 33}, {20, 32}, {20, 33}, {22, 32}, {22, 33}, {23, 25}, {23, 27}, {23, 29}, {23, 32},
    {23, 33}, {24, 25}, {24, 27}, {24, 31}, {25, 31}, {26, 29}, {26, 33}, {27, 33}, {28, 31}, {28, 33}, {29, 32},
    {29, 33}, {30, 32}, {30, 33}, {31, 32}, {31, 33}, {32, 33},
};

/* The club has 1 at each tie, from either member to the other. */
static TrB_Matrix load(TrB_Pass *pass)
{
    TrB_Index rows[2 * TIES], columns[2 * TIES];
    uint64_t ones[2 * TIES];
    TrB_Matrix club;
    for (size_t k = 0; k < TIES; k++) {
        rows[2 * k] = columns[2 * k + 1] = ties[k][0];
        columns[2 * k] = rows[2 * k + 1] = ties[k][1];
        ones[2 * k] = ones[2 * k + 1] = 1;
    }
    OK(TrB_Matrix_new(pass, &club, TrB_UINT64, MEMBERS, MEMBERS));
    OK(TrB_Matrix_build_UINT64(pass, club, rows, columns, ones, 2 * TIES, TrB_PLUS));
    return club;
}

/* The part below the diagonal has each tie once. Its product with itself has at (i,j) the number of paths from i down
 * over some k to j; where i and j are tied too, each is a triangle. */
static void show_triangles(TrB_Pass *pass, TrB_Matrix club)
{
    TrB_Matrix below, paths;
    uint64_t triangles;
    OK(TrB_Matrix_new(pass, &below, TrB_UINT64, MEMBERS, MEMBERS));
    OK(TrB_Matrix_new(pass, &paths, TrB_UINT64, MEMBERS, MEMBERS));
    OK(TrB_Matrix_select_INT64(pass, below, TrB_NO_MATRIX, TrB_NO_ACCUM, TrB_TRIL, club, -1, TrB_DEFAULT));
    OK(TrB_mxm(pass, paths, below, TrB_NO_ACCUM, TrB_PLUS_TIMES, below, below, TrB_STRUCTURE));
    OK(TrB_Matrix_reduce_UINT64(pass, &triangles, TrB_PLUS, paths));
    printf("triangles %" PRIu64 "\n", triangles);
    OK(TrB_Matrix_free(pass, below));
    OK(TrB_Matrix_free(pass, paths));
}

/* The k-truss: the most ties of which each is in k - 2 triangles of them. Ties in fewer are left out until none is. */
static void show_truss(TrB_Pass *pass, TrB_Matrix club, uint64_t k)
{
    TrB_Matrix truss, support;
    TrB_Vector degrees;
    TrB_Index nvals, before, members;
    OK(TrB_Matrix_dup(pass, &truss, club));
    OK(TrB_Matrix_new(pass, &support, TrB_UINT64, MEMBERS, MEMBERS));
    OK(TrB_Vector_new(pass, &degrees, TrB_UINT64, MEMBERS));
    OK(TrB_Matrix_nvals(pass, &nvals, truss));
    do {
        before = nvals;
        OK(TrB_mxm(pass, support, truss, TrB_NO_ACCUM, TrB_PLUS_TIMES, truss, truss, TrB_STRUCTURE | TrB_REPLACE));
        OK(TrB_Matrix_select_UINT64(pass, support, TrB_NO_MATRIX, TrB_NO_ACCUM, TrB_VALUEGE, support, k - 2, TrB_DEFAULT));
        OK(TrB_Matrix_apply_BinaryOp1st_UINT64(pass, truss, TrB_NO_MATRIX, TrB_NO_ACCUM, TrB_FIRST, 1, support,
                                               TrB_DEFAULT));
        OK(TrB_Matrix_nvals(pass, &nvals, truss));
    } while (nvals != before);
    OK(TrB_Matrix_reduce(pass, degrees, TrB_NO_VECTOR, TrB_NO_ACCUM, TrB_PLUS, truss, TrB_DEFAULT));
    OK(TrB_Vector_nvals(pass, &members, degrees));
    printf("truss %" PRIu64 " ties %" PRIu64 " members %" PRIu64 "\n", k, nvals / 2, members);
    OK(TrB_Matrix_free(pass, truss));
    OK(TrB_Matrix_free(pass, support));
    OK(TrB_Vector_free(pass, degrees));
}

/* A degree is the sum of a row. */
static void show_degrees(TrB_Pass *pass, TrB_Matrix club)
{
    TrB_Vector degrees;
    TrB_Index found[MEMBERS], nvals = MEMBERS;
    uint64_t values[MEMBERS];
    OK(TrB_Vector_new(pass, &degrees, TrB_UINT64, MEMBERS));
    OK(TrB_Matrix_reduce(pass, degrees, TrB_NO_VECTOR, TrB_NO_ACCUM, TrB_PLUS, club, TrB_DEFAULT));
    OK(TrB_Vector_select_UINT64(pass, degrees, TrB_NO_VECTOR, TrB_NO_ACCUM, TrB_VALUEGE, degrees, MANY, TrB_DEFAULT));
    OK(TrB_Vector_extractTuples_UINT64(pass, found, values, &nvals, degrees));
    printf("degree at least %d:", MANY);
    for (size_t k = 0; k < nvals; k++) {
        printf("%s %" PRIu64 " %" PRIu64, k == 0 ? "" : ",", found[k], values[k]);
    }
    printf("\n");
    OK(TrB_Vector_free(pass, degrees));
}

/* Two steps along ties, and what is known is the mask: the member and who is tied to it. */
static void show_two_hops(TrB_Pass *pass, TrB_Matrix club)
{
    TrB_Vector known, found;
    TrB_Index indices[MEMBERS], nvals = MEMBERS;
    uint64_t values[MEMBERS];
    OK(TrB_Vector_new(pass, &known, TrB_UINT64, MEMBERS));
    OK(TrB_Vector_new(pass, &found, TrB_UINT64, MEMBERS));
    OK(TrB_Vector_setElement_UINT64(pass, known, 1, MEMBER));
    OK(TrB_vxm(pass, found, TrB_NO_VECTOR, TrB_NO_ACCUM, TrB_PLUS_TIMES, known, club, TrB_DEFAULT));
    OK(TrB_Vector_eWiseAdd(pass, known, TrB_NO_VECTOR, TrB_NO_ACCUM, TrB_PLUS, known, found, TrB_DEFAULT));
    OK(TrB_vxm(pass, found, known, TrB_NO_ACCUM, TrB_PLUS_TIMES, found, club, TrB_STRUCTURE | TrB_COMP | TrB_REPLACE));
    OK(TrB_Vector_extractTuples_UINT64(pass, indices, values, &nvals, found));
    printf("two hops from %d, no tie:", MEMBER);
    for (size_t k = 0; k < nvals; k++) {
        printf(" %" PRIu64, indices[k]);
    }
    printf("\n");
    OK(TrB_Vector_free(pass, known));
    OK(TrB_Vector_free(pass, found));
}

int main(void)
{
    TrB_Pass pass = TRB_PASS_INIT;
    OK(TrB_open(200, &pass, 1));
    TrB_Matrix club = load(&pass);
    show_triangles(&pass, club);
    for (uint64_t k = 3; k <= 5; k++) {
        show_truss(&pass, club, k);
    }
    show_degrees(&pass, club);
    show_two_hops(&pass, club);
    TrB_free(&pass);
    return 0;
}

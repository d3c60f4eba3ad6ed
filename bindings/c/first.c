/* A first program: opens a store, stores entries, reads them, multiplies, and shows a refusal.
 *
 *     cc -std=c11 -O2 -o first first.c libgrb_c.a liblibc_c.a -lpthread
 */
#include "check.h"
#include "trowelheath.h"

#include <inttypes.h>
#include <stdio.h>

/* Prints the number that the matrix stores at a place, if there is one. */
static void show(TrB_Pass *pass, TrB_Matrix a, TrB_Index i, TrB_Index j)
{
    uint64_t x;
    TrB_Info info = TrB_Matrix_extractElement_UINT64(pass, &x, a, i, j);
    if (info == TrB_NO_VALUE) {
        printf("A(%" PRIu64 ",%" PRIu64 "): no entry\n", i, j);
        return;
    }
    OK(info);
    printf("A(%" PRIu64 ",%" PRIu64 "): %" PRIu64 "\n", i, j, x);
}

int main(void)
{
    /* The library is the one that the header is for. */
    HOLDS(TrB_version() == TRB_VERSION_NUMBER);

    /* Room for 100 changes in the whole life of the store, and one pass. */
    TrB_Pass pass = TRB_PASS_INIT;
    OK(TrB_open(100, &pass, 1));

    /* A matrix of 2 rows and 3 columns. A later value takes the place of an earlier one. */
    TrB_Matrix a;
    OK(TrB_Matrix_new(&pass, &a, TrB_UINT64, 2, 3));
    OK(TrB_Matrix_setElement_UINT64(&pass, a, 1, 0, 0));
    OK(TrB_Matrix_setElement_UINT64(&pass, a, 5, 0, 2));
    OK(TrB_Matrix_setElement_UINT64(&pass, a, 2, 0, 2));
    OK(TrB_Matrix_setElement_UINT64(&pass, a, 3, 1, 1));
    show(&pass, a, 0, 2);
    show(&pass, a, 1, 0);

    /* A vector of size 3, from arrays. */
    const TrB_Index indices[] = {0, 2};
    const uint64_t values[] = {10, 30};
    TrB_Vector u;
    OK(TrB_Vector_new(&pass, &u, TrB_UINT64, 3));
    OK(TrB_Vector_build_UINT64(&pass, u, indices, values, 2, TrB_PLUS));

    /* w = A * u, and all entries of w. Row 1 of A and u have no index in common, so w(1) is no entry. */
    TrB_Vector w;
    OK(TrB_Vector_new(&pass, &w, TrB_UINT64, 2));
    OK(TrB_mxv(&pass, w, TrB_NO_VECTOR, TrB_NO_ACCUM, TrB_PLUS_TIMES, a, u, TrB_DEFAULT));
    TrB_Index at[2];
    uint64_t product[2];
    TrB_Index nvals = 2;
    OK(TrB_Vector_extractTuples_UINT64(&pass, at, product, &nvals, w));
    for (TrB_Index k = 0; k < nvals; k++) {
        printf("w(%" PRIu64 "): %" PRIu64 "\n", at[k], product[k]);
    }
    HOLDS(nvals == 1 && at[0] == 0 && product[0] == 1 * 10 + 2 * 30);

    /* A refused call does nothing. Its status has a name, and a hint. */
    TrB_Info info = TrB_Matrix_setElement_UINT64(&pass, a, 9, 2, 0);
    ANSWERS(info, TrB_INVALID_INDEX);
    printf("%s. %s\n", TrB_name(info), TrB_hint(info));
    OK(TrB_Matrix_nvals(&pass, &nvals, a));
    printf("A has %" PRIu64 " entries\n", nvals);
    HOLDS(nvals == 3);

    TrB_free(&pass);
    return 0;
}

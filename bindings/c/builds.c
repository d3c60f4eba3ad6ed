/* Builds from arrays in any order, where a place may stand more than once: what each monoid makes of the values of
 * one place, reckoned by hand, and which arrays are refused.
 *
 *     cc -std=c11 -O2 -o builds builds.c libgrb_c.a liblibc_c.a -lpthread
 */
#include "check.h"
#include "trowelheath.h"

#include <inttypes.h>
#include <stdio.h>

enum { NROWS = 3, NCOLS = 4, TUPLES = 8, ENTRIES = 4, MONOIDS = 4, ORDERS = 3, ROOM = 200 };
#define LAST ((TrB_Index)UINT32_MAX - 1)
#define TOO_LARGE ((TrB_Index)UINT32_MAX + 1)

/* The tuples. Place 4 * i + j of a vector stands for row i and column j of a matrix. */
static const TrB_Index rows[TUPLES] = {2, 0, 1, 2, 0, 2, 1, 0};
static const TrB_Index columns[TUPLES] = {1, 3, 2, 1, 0, 1, 2, 3};
static const uint64_t numbers[TUPLES] = {3, 5, 9, 4, 6, 10, 1, 2};
static const bool truths[TUPLES] = {true, true, true, false, false, false, false, true};

/* Orders in which they are given: as they stand, so that no place is above a later one, and the other way round. */
static const int orders[ORDERS][TUPLES] = {
    {0, 1, 2, 3, 4, 5, 6, 7},
    {4, 1, 7, 2, 6, 0, 3, 5},
    {5, 3, 0, 6, 2, 7, 1, 4},
};

/* The places that are stored, in their order, and what each monoid makes of 6; 5, 2; 9, 1; and 3, 4, 10. */
static const TrB_Index stored_rows[ENTRIES] = {0, 0, 1, 2};
static const TrB_Index stored_columns[ENTRIES] = {0, 3, 2, 1};
static const struct {
    TrB_BinaryOp dup;
    const char *name;
    uint64_t wanted[ENTRIES];
} of_numbers[MONOIDS] = {
    {TrB_PLUS, "plus", {6, 7, 10, 17}},
    {TrB_TIMES, "times", {6, 10, 9, 120}},
    {TrB_MIN, "min", {6, 2, 1, 3}},
    {TrB_MAX, "max", {6, 5, 9, 10}},
};

/* The same of false; true, true; true, false; and true, false, false. */
static const struct {
    TrB_BinaryOp dup;
    const char *name;
    bool wanted[ENTRIES];
} of_truths[MONOIDS] = {
    {TrB_LOR, "lor", {false, true, true, true}},
    {TrB_LAND, "land", {false, true, false, false}},
    {TrB_LXOR, "lxor", {false, false, true, true}},
    {TrB_LXNOR, "lxnor", {false, true, false, true}},
};

static TrB_Pass pass = TRB_PASS_INIT;

/* The places and values of the tuples in an order. */
typedef struct {
    TrB_Index rows[TUPLES], columns[TUPLES], indices[TUPLES];
    uint64_t numbers[TUPLES];
    bool truths[TUPLES];
} Arrays;

static Arrays arrays_in(const int *order)
{
    Arrays given;
    for (int at = 0; at < TUPLES; at++) {
        int k = order[at];
        given.rows[at] = rows[k];
        given.columns[at] = columns[k];
        given.indices[at] = NCOLS * rows[k] + columns[k];
        given.numbers[at] = numbers[k];
        given.truths[at] = truths[k];
    }
    return given;
}

static void of_matrix_of_numbers(const Arrays *given, TrB_BinaryOp dup, const uint64_t *wanted)
{
    TrB_Matrix a;
    TrB_Index is[ENTRIES], js[ENTRIES], nvals = ENTRIES;
    uint64_t xs[ENTRIES];
    OK(TrB_Matrix_new(&pass, &a, TrB_UINT64, NROWS, NCOLS));
    OK(TrB_Matrix_build_UINT64(&pass, a, given->rows, given->columns, given->numbers, TUPLES, dup));
    OK(TrB_Matrix_extractTuples_UINT64(&pass, is, js, xs, &nvals, a));
    HOLDS(nvals == ENTRIES);
    for (int k = 0; k < ENTRIES; k++) {
        HOLDS(is[k] == stored_rows[k] && js[k] == stored_columns[k] && xs[k] == wanted[k]);
    }
    OK(TrB_Matrix_free(&pass, a));
}

static void of_vector_of_numbers(const Arrays *given, TrB_BinaryOp dup, const uint64_t *wanted)
{
    TrB_Vector v;
    TrB_Index is[ENTRIES], nvals = ENTRIES;
    uint64_t xs[ENTRIES];
    OK(TrB_Vector_new(&pass, &v, TrB_UINT64, NROWS * NCOLS));
    OK(TrB_Vector_build_UINT64(&pass, v, given->indices, given->numbers, TUPLES, dup));
    OK(TrB_Vector_extractTuples_UINT64(&pass, is, xs, &nvals, v));
    HOLDS(nvals == ENTRIES);
    for (int k = 0; k < ENTRIES; k++) {
        HOLDS(is[k] == NCOLS * stored_rows[k] + stored_columns[k] && xs[k] == wanted[k]);
    }
    OK(TrB_Vector_free(&pass, v));
}

static void of_matrix_of_truths(const Arrays *given, TrB_BinaryOp dup, const bool *wanted)
{
    TrB_Matrix a;
    TrB_Index is[ENTRIES], js[ENTRIES], nvals = ENTRIES;
    bool xs[ENTRIES];
    OK(TrB_Matrix_new(&pass, &a, TrB_BOOL, NROWS, NCOLS));
    OK(TrB_Matrix_build_BOOL(&pass, a, given->rows, given->columns, given->truths, TUPLES, dup));
    OK(TrB_Matrix_extractTuples_BOOL(&pass, is, js, xs, &nvals, a));
    HOLDS(nvals == ENTRIES);
    for (int k = 0; k < ENTRIES; k++) {
        HOLDS(is[k] == stored_rows[k] && js[k] == stored_columns[k] && xs[k] == wanted[k]);
    }
    OK(TrB_Matrix_free(&pass, a));
}

static void of_vector_of_truths(const Arrays *given, TrB_BinaryOp dup, const bool *wanted)
{
    TrB_Vector v;
    TrB_Index is[ENTRIES], nvals = ENTRIES;
    bool xs[ENTRIES];
    OK(TrB_Vector_new(&pass, &v, TrB_BOOL, NROWS * NCOLS));
    OK(TrB_Vector_build_BOOL(&pass, v, given->indices, given->truths, TUPLES, dup));
    OK(TrB_Vector_extractTuples_BOOL(&pass, is, xs, &nvals, v));
    HOLDS(nvals == ENTRIES);
    for (int k = 0; k < ENTRIES; k++) {
        HOLDS(is[k] == NCOLS * stored_rows[k] + stored_columns[k] && xs[k] == wanted[k]);
    }
    OK(TrB_Vector_free(&pass, v));
}

static void of_each_monoid(void)
{
    for (int order = 0; order < ORDERS; order++) {
        Arrays given = arrays_in(orders[order]);
        for (int m = 0; m < MONOIDS; m++) {
            of_matrix_of_numbers(&given, of_numbers[m].dup, of_numbers[m].wanted);
            of_vector_of_numbers(&given, of_numbers[m].dup, of_numbers[m].wanted);
            of_matrix_of_truths(&given, of_truths[m].dup, of_truths[m].wanted);
            of_vector_of_truths(&given, of_truths[m].dup, of_truths[m].wanted);
        }
    }
    for (int m = 0; m < MONOIDS; m++) {
        const uint64_t *n = of_numbers[m].wanted;
        printf("%s: %" PRIu64 ", %" PRIu64 ", %" PRIu64 ", %" PRIu64 "\n", of_numbers[m].name, n[0], n[1], n[2], n[3]);
    }
    for (int m = 0; m < MONOIDS; m++) {
        const bool *b = of_truths[m].wanted;
        printf("%s: %d, %d, %d, %d\n", of_truths[m].name, b[0], b[1], b[2], b[3]);
    }
}

/* Rows and columns of which a number of 64 bits has no room for the place of a tuple too. */
static void of_the_last_places(void)
{
    const TrB_Index is[] = {LAST, 0, LAST, 0};
    const TrB_Index js[] = {LAST, LAST, LAST, 0};
    const uint64_t xs[] = {1, 2, 3, UINT64_MAX};
    TrB_Index i[3], j[3], nvals = 3;
    uint64_t x[3];
    TrB_Matrix a;
    TrB_Vector v;
    OK(TrB_Matrix_new(&pass, &a, TrB_UINT64, UINT32_MAX, UINT32_MAX));
    OK(TrB_Matrix_build_UINT64(&pass, a, is, js, xs, 4, TrB_PLUS));
    OK(TrB_Matrix_extractTuples_UINT64(&pass, i, j, x, &nvals, a));
    HOLDS(nvals == 3);
    HOLDS(i[0] == 0 && j[0] == 0 && x[0] == UINT64_MAX);
    HOLDS(i[1] == 0 && j[1] == LAST && x[1] == 2);
    HOLDS(i[2] == LAST && j[2] == LAST && x[2] == 4);

    /* The sum of 1, 3 and 2^64 - 1 is 3. */
    OK(TrB_Vector_new(&pass, &v, TrB_UINT64, UINT32_MAX));
    const TrB_Index at[] = {LAST, 0, LAST, LAST};
    OK(TrB_Vector_build_UINT64(&pass, v, at, xs, 4, TrB_PLUS));
    nvals = 3;
    OK(TrB_Vector_extractTuples_UINT64(&pass, i, x, &nvals, v));
    HOLDS(nvals == 2);
    HOLDS(i[0] == 0 && x[0] == 2);
    HOLDS(i[1] == LAST && x[1] == 3);
    printf("the last places: built\n");
}

/* The builds answer this status, and the objects stay empty. */
static void refused(const char *wrong, const Arrays *given, TrB_Info status)
{
    TrB_Matrix a, t;
    TrB_Vector v, w;
    TrB_Index nvals = TUPLES;
    OK(TrB_Matrix_new(&pass, &a, TrB_UINT64, NROWS, NCOLS));
    OK(TrB_Matrix_new(&pass, &t, TrB_BOOL, NROWS, NCOLS));
    OK(TrB_Vector_new(&pass, &v, TrB_UINT64, NROWS * NCOLS));
    OK(TrB_Vector_new(&pass, &w, TrB_BOOL, NROWS * NCOLS));
    ANSWERS(TrB_Matrix_build_UINT64(&pass, a, given->rows, given->columns, given->numbers, TUPLES, TrB_PLUS), status);
    ANSWERS(TrB_Matrix_build_BOOL(&pass, t, given->rows, given->columns, given->truths, TUPLES, TrB_LOR), status);
    ANSWERS(TrB_Vector_build_UINT64(&pass, v, given->indices, given->numbers, TUPLES, TrB_PLUS), status);
    ANSWERS(TrB_Vector_build_BOOL(&pass, w, given->indices, given->truths, TUPLES, TrB_LOR), status);
    OK(TrB_Matrix_nvals(&pass, &nvals, a));
    HOLDS(nvals == 0);
    OK(TrB_Matrix_nvals(&pass, &nvals, t));
    HOLDS(nvals == 0);
    OK(TrB_Vector_nvals(&pass, &nvals, v));
    HOLDS(nvals == 0);
    OK(TrB_Vector_nvals(&pass, &nvals, w));
    HOLDS(nvals == 0);
    printf("%s: %s\n", TrB_name(status), wrong);
}

static void of_places_outside(void)
{
    const Arrays inside = arrays_in(orders[0]);
    const TrB_Index too_large[] = {TOO_LARGE, TOO_LARGE + 1, UINT64_MAX};

    Arrays given = inside;
    given.rows[3] = NROWS;
    given.indices[3] = NROWS * NCOLS;
    refused("a row or an index that is the dimension", &given, TrB_INDEX_OUT_OF_BOUNDS);
    given = inside;
    given.columns[3] = NCOLS;
    given.indices[3] = LAST + 1;
    refused("a column that is the dimension, or an index of 2^32 - 1", &given, TrB_INDEX_OUT_OF_BOUNDS);
    for (int k = 0; k < 3; k++) {
        given = inside;
        given.rows[5] = too_large[k];
        given.indices[5] = too_large[k];
        refused("a row or an index of 2^32 or above", &given, TrB_INDEX_OUT_OF_BOUNDS);
        given = inside;
        given.columns[7] = too_large[k];
        given.indices[7] = too_large[k];
        refused("a column or an index of 2^32 or above", &given, TrB_INDEX_OUT_OF_BOUNDS);
    }
}

static void of_another_domain(void)
{
    const Arrays given = arrays_in(orders[0]);
    TrB_Matrix a;
    TrB_Vector v;
    OK(TrB_Matrix_new(&pass, &a, TrB_UINT64, NROWS, NCOLS));
    OK(TrB_Vector_new(&pass, &v, TrB_BOOL, NROWS * NCOLS));
    ANSWERS(TrB_Matrix_build_BOOL(&pass, a, given.rows, given.columns, given.truths, TUPLES, TrB_LOR), TrB_DOMAIN_MISMATCH);
    ANSWERS(TrB_Vector_build_UINT64(&pass, v, given.indices, given.numbers, TUPLES, TrB_PLUS), TrB_DOMAIN_MISMATCH);
    printf("%s: arrays of another domain\n", TrB_name(TrB_DOMAIN_MISMATCH));
}

int main(void)
{
    OK(TrB_open(ROOM, &pass, 1));
    of_each_monoid();
    of_the_last_places();
    of_places_outside();
    of_another_domain();
    TrB_free(&pass);
    return 0;
}

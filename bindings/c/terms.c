/* Each call that maps, filters, turns or lays out the entries of an object: transpose, apply, select, kronecker and
 * diag, an input that is read transposed, and what such calls are refused for.
 *
 *     cc -std=c11 -O2 -o terms terms.c libgrb_c.a liblibc_c.a -lpthread
 */
#include "check.h"
#include "trowelheath.h"

#include <inttypes.h>
#include <stdio.h>

enum { ROOM = 400, MOST = 16 };
#define LARGEST ((TrB_Index)UINT32_MAX)

static TrB_Pass pass = TRB_PASS_INIT;

/* The objects of this program. Matrix a is 2 x 3 and s is 3 x 3, each of numbers; t is 2 x 3, of truth values. Vector
 * u is of size 5, of numbers; q is of size 3, of truth values. */
static TrB_Matrix a, s, t;
static TrB_Vector u, q;

/* ---- What is printed --------------------------------------------------------------------------- */

static TrB_Matrix matrix_of(TrB_Type type, TrB_Index nrows, TrB_Index ncols)
{
    TrB_Matrix c;
    OK(TrB_Matrix_new(&pass, &c, type, nrows, ncols));
    return c;
}

static TrB_Vector vector_of(TrB_Type type, TrB_Index size)
{
    TrB_Vector w;
    OK(TrB_Vector_new(&pass, &w, type, size));
    return w;
}

static const char *word(bool x)
{
    return x ? "true" : "false";
}

/* Prints all entries of a matrix, each as its row, its column and its value. */
static void show_matrix(const char *title, TrB_Matrix c)
{
    TrB_Index rows[MOST], columns[MOST], nvals = MOST;
    uint64_t values[MOST];
    OK(TrB_Matrix_extractTuples_UINT64(&pass, rows, columns, values, &nvals, c));
    printf("%s:", title);
    for (size_t k = 0; k < nvals; k++) {
        printf(" %" PRIu64 " %" PRIu64 " %" PRIu64, rows[k], columns[k], values[k]);
    }
    printf("\n");
}

static void show_truths(const char *title, TrB_Matrix c)
{
    TrB_Index rows[MOST], columns[MOST], nvals = MOST;
    bool values[MOST];
    OK(TrB_Matrix_extractTuples_BOOL(&pass, rows, columns, values, &nvals, c));
    printf("%s:", title);
    for (size_t k = 0; k < nvals; k++) {
        printf(" %" PRIu64 " %" PRIu64 " %s", rows[k], columns[k], word(values[k]));
    }
    printf("\n");
}

/* The same of a vector: each entry as its index and its value. */
static void show_vector(const char *title, TrB_Vector w)
{
    TrB_Index indices[MOST], nvals = MOST;
    uint64_t values[MOST];
    OK(TrB_Vector_extractTuples_UINT64(&pass, indices, values, &nvals, w));
    printf("%s:", title);
    for (size_t k = 0; k < nvals; k++) {
        printf(" %" PRIu64 " %" PRIu64, indices[k], values[k]);
    }
    printf("\n");
}

static void show_vector_truths(const char *title, TrB_Vector w)
{
    TrB_Index indices[MOST], nvals = MOST;
    bool values[MOST];
    OK(TrB_Vector_extractTuples_BOOL(&pass, indices, values, &nvals, w));
    printf("%s:", title);
    for (size_t k = 0; k < nvals; k++) {
        printf(" %" PRIu64 " %s", indices[k], word(values[k]));
    }
    printf("\n");
}

/* The call answers this status. Prints the status, and what was wrong. */
#define REFUSED(status, wrong, call)                     \
    do {                                                 \
        ANSWERS(call, status);                           \
        printf("%s: %s\n", TrB_name(status), wrong);     \
    } while (0)

/* ---- The objects ------------------------------------------------------------------------------- */

static void fill(void)
{
    OK(TrB_open(ROOM, &pass, 1));
    a = matrix_of(TrB_UINT64, 2, 3);
    OK(TrB_Matrix_build_UINT64(&pass, a, (TrB_Index[]){0, 0, 1}, (TrB_Index[]){1, 2, 1}, (uint64_t[]){2, 5, 7}, 3,
                               TrB_PLUS));
    s = matrix_of(TrB_UINT64, 3, 3);
    OK(TrB_Matrix_build_UINT64(&pass, s, (TrB_Index[]){0, 0, 1, 2, 2}, (TrB_Index[]){0, 2, 1, 0, 1},
                               (uint64_t[]){1, 3, 5, 7, 8}, 5, TrB_PLUS));
    t = matrix_of(TrB_BOOL, 2, 3);
    OK(TrB_Matrix_build_BOOL(&pass, t, (TrB_Index[]){0, 1, 1}, (TrB_Index[]){1, 1, 2}, (bool[]){true, false, true}, 3,
                             TrB_LOR));
    u = vector_of(TrB_UINT64, 5);
    OK(TrB_Vector_build_UINT64(&pass, u, (TrB_Index[]){0, 1, 3}, (uint64_t[]){10, 11, 13}, 3, TrB_PLUS));
    q = vector_of(TrB_BOOL, 3);
    OK(TrB_Vector_build_BOOL(&pass, q, (TrB_Index[]){0, 2}, (bool[]){true, false}, 2, TrB_LOR));
    show_matrix("a", a);
    show_matrix("s", s);
    show_truths("t", t);
    show_vector("u", u);
    show_vector_truths("q", q);
}

/* All entries, in rising order whatever the order of the build. */
static void all_entries(void)
{
    TrB_Matrix b = matrix_of(TrB_BOOL, 2, 2);
    TrB_Index rows[MOST], columns[MOST], nvals = MOST;
    bool values[MOST];
    show_truths("all entries of an empty matrix", b);
    OK(TrB_Matrix_build_BOOL(&pass, b, (TrB_Index[]){1, 0}, (TrB_Index[]){0, 1}, (bool[]){false, true}, 2, TrB_LOR));
    show_truths("all entries of what was built", b);
    OK(TrB_Matrix_free(&pass, b));
    REFUSED(TrB_UNINITIALIZED_OBJECT, "all entries of a freed matrix",
            TrB_Matrix_extractTuples_BOOL(&pass, rows, columns, values, &nvals, b));
}

/* ---- Inputs that are read transposed ----------------------------------------------------------- */

static void transposes(void)
{
    TrB_Matrix c = matrix_of(TrB_UINT64, 3, 2), d = matrix_of(TrB_UINT64, 2, 3), e = matrix_of(TrB_BOOL, 3, 2);
    OK(TrB_transpose(&pass, c, TrB_NO_MATRIX, TrB_NO_ACCUM, a, TrB_DEFAULT));
    show_matrix("a turned", c);
    OK(TrB_transpose(&pass, d, TrB_NO_MATRIX, TrB_NO_ACCUM, a, TrB_TRAN));
    show_matrix("a turned twice", d);
    OK(TrB_transpose(&pass, e, TrB_NO_MATRIX, TrB_NO_ACCUM, t, TrB_DEFAULT));
    show_truths("t turned", e);
    OK(TrB_transpose(&pass, c, e, TrB_PLUS, a, TrB_STRUCTURE | TrB_COMP));
    show_matrix("and once more outside of t turned, added", c);
    OK(TrB_transpose(&pass, c, e, TrB_NO_ACCUM, a, TrB_STRUCTURE | TrB_REPLACE));
    show_matrix("and inside of it, with replace", c);
}

static void second_inputs(void)
{
    TrB_Matrix b = matrix_of(TrB_UINT64, 2, 2), c = matrix_of(TrB_UINT64, 3, 2), d = matrix_of(TrB_UINT64, 2, 3);
    TrB_Vector w = vector_of(TrB_UINT64, 2), v = vector_of(TrB_UINT64, 3);
    OK(TrB_Matrix_build_UINT64(&pass, c, (TrB_Index[]){0, 1, 1}, (TrB_Index[]){0, 0, 1}, (uint64_t[]){20, 30, 40}, 3,
                               TrB_PLUS));
    OK(TrB_Vector_build_UINT64(&pass, v, (TrB_Index[]){1, 2}, (uint64_t[]){1, 10}, 2, TrB_PLUS));
    OK(TrB_mxm(&pass, b, TrB_NO_MATRIX, TrB_NO_ACCUM, TrB_PLUS_TIMES, a, a, TrB_TRAN1));
    show_matrix("a times a turned", b);
    OK(TrB_mxm(&pass, b, TrB_NO_MATRIX, TrB_NO_ACCUM, TrB_PLUS_TIMES, c, a, TrB_TRAN | TrB_TRAN1));
    show_matrix("c turned times a turned", b);
    OK(TrB_Matrix_eWiseAdd(&pass, d, TrB_NO_MATRIX, TrB_NO_ACCUM, TrB_MINUS, a, c, TrB_TRAN1));
    show_matrix("a minus c turned, where either stores", d);
    OK(TrB_Matrix_eWiseMult(&pass, c, TrB_NO_MATRIX, TrB_NO_ACCUM, TrB_MINUS, a, d, TrB_TRAN | TrB_TRAN1));
    show_matrix("a turned minus that turned, where both do", c);
    OK(TrB_vxm(&pass, w, TrB_NO_VECTOR, TrB_NO_ACCUM, TrB_PLUS_TIMES, v, a, TrB_TRAN1));
    show_vector("v times a turned", w);
}

/* ---- Functions of values ----------------------------------------------------------------------- */

static void applies(void)
{
    TrB_Matrix c = matrix_of(TrB_UINT64, 3, 2), d = matrix_of(TrB_UINT64, 2, 3), e = matrix_of(TrB_BOOL, 2, 3);
    TrB_Vector w = vector_of(TrB_UINT64, 5), p = vector_of(TrB_BOOL, 3);
    OK(TrB_Matrix_apply(&pass, c, TrB_NO_MATRIX, TrB_NO_ACCUM, TrB_AINV, a, TrB_TRAN));
    show_matrix("ainv of a turned", c);
    OK(TrB_Matrix_apply_BinaryOp2nd_UINT64(&pass, c, TrB_NO_MATRIX, TrB_NO_ACCUM, TrB_MINUS, a, 1, TrB_TRAN));
    show_matrix("a turned minus 1", c);
    OK(TrB_Matrix_apply_BinaryOp1st_UINT64(&pass, c, TrB_NO_MATRIX, TrB_NO_ACCUM, TrB_MINUS, 9, a, TrB_TRAN1));
    show_matrix("9 minus a turned", c);
    REFUSED(TrB_DIMENSION_MISMATCH, "9 minus a, which has another shape",
            TrB_Matrix_apply_BinaryOp1st_UINT64(&pass, c, TrB_NO_MATRIX, TrB_NO_ACCUM, TrB_MINUS, 9, a, TrB_DEFAULT));
    OK(TrB_Matrix_apply(&pass, d, TrB_NO_MATRIX, TrB_NO_ACCUM, TrB_BNOT, a, TrB_DEFAULT));
    show_matrix("bnot of a", d);
    OK(TrB_Matrix_apply(&pass, d, t, TrB_NO_ACCUM, TrB_IDENTITY, a, TrB_COMP | TrB_REPLACE));
    show_matrix("a outside of t, with replace", d);
    OK(TrB_Matrix_apply(&pass, e, TrB_NO_MATRIX, TrB_NO_ACCUM, TrB_LNOT, t, TrB_DEFAULT));
    show_truths("lnot of t", e);
    OK(TrB_Matrix_apply(&pass, e, TrB_NO_MATRIX, TrB_LAND, TrB_IDENTITY_BOOL, t, TrB_DEFAULT));
    show_truths("and t", e);
    OK(TrB_Matrix_apply_BinaryOp1st_BOOL(&pass, e, TrB_NO_MATRIX, TrB_NO_ACCUM, TrB_FIRST_BOOL, true, t, TrB_DEFAULT));
    show_truths("true at each entry of t", e);
    OK(TrB_Matrix_apply_BinaryOp2nd_BOOL(&pass, e, TrB_NO_MATRIX, TrB_NO_ACCUM, TrB_LXOR, t, true, TrB_DEFAULT));
    show_truths("t lxor true", e);
    OK(TrB_Vector_apply(&pass, w, TrB_NO_VECTOR, TrB_NO_ACCUM, TrB_AINV, u, TrB_DEFAULT));
    show_vector("ainv of u", w);
    OK(TrB_Vector_apply_BinaryOp1st_UINT64(&pass, w, TrB_NO_VECTOR, TrB_NO_ACCUM, TrB_MINUS, 12, u, TrB_DEFAULT));
    show_vector("12 minus u", w);
    OK(TrB_Vector_apply_BinaryOp2nd_UINT64(&pass, w, TrB_NO_VECTOR, TrB_PLUS, TrB_MIN, u, 11, TrB_DEFAULT));
    show_vector("to which the smaller of u and 11 is added", w);
    OK(TrB_Vector_apply(&pass, p, TrB_NO_VECTOR, TrB_NO_ACCUM, TrB_LNOT, q, TrB_DEFAULT));
    show_vector_truths("lnot of q", p);
    OK(TrB_Vector_apply_BinaryOp1st_BOOL(&pass, p, TrB_NO_VECTOR, TrB_NO_ACCUM, TrB_LAND, false, q, TrB_DEFAULT));
    show_vector_truths("false land q", p);
    OK(TrB_Vector_apply_BinaryOp2nd_BOOL(&pass, p, TrB_NO_VECTOR, TrB_NO_ACCUM, TrB_LXNOR, q, false, TrB_DEFAULT));
    show_vector_truths("q lxnor false", p);
}

/* ---- Tests of places and values ---------------------------------------------------------------- */

/* A vector is a column. */
static void selects_of_vectors(void)
{
    static const struct {
        const char *title;
        TrB_IndexUnaryOp test;
        int64_t k;
    } rows[] = {{"u rowle 1", TrB_ROWLE, 1}, {"u rowgt 1", TrB_ROWGT, 1}, {"u colle 0", TrB_COLLE, 0},
                {"u colgt 0", TrB_COLGT, 0}, {"u tril -1", TrB_TRIL, -1}, {"u triu -1", TrB_TRIU, -1},
                {"u diag -3", TrB_DIAG, -3}, {"u offdiag 0", TrB_OFFDIAG, 0}};
    TrB_Vector w = vector_of(TrB_UINT64, 5), p = vector_of(TrB_BOOL, 3);
    for (size_t k = 0; k < sizeof rows / sizeof rows[0]; k++) {
        OK(TrB_Vector_select_INT64(&pass, w, TrB_NO_VECTOR, TrB_NO_ACCUM, rows[k].test, u, rows[k].k, TrB_DEFAULT));
        show_vector(rows[k].title, w);
    }
    OK(TrB_Vector_select_UINT64(&pass, w, TrB_NO_VECTOR, TrB_NO_ACCUM, TrB_VALUELE, u, 11, TrB_DEFAULT));
    show_vector("u valuele 11", w);
    OK(TrB_Vector_select_INT64(&pass, p, TrB_NO_VECTOR, TrB_NO_ACCUM, TrB_ROWGT, q, 0, TrB_DEFAULT));
    show_vector_truths("q rowgt 0", p);
    OK(TrB_Vector_select_BOOL(&pass, p, TrB_NO_VECTOR, TrB_NO_ACCUM, TrB_VALUEGT, q, false, TrB_DEFAULT));
    show_vector_truths("q valuegt false", p);
}

static void selects_of_matrices(void)
{
    static const struct {
        const char *title;
        TrB_IndexUnaryOp test;
        int64_t k;
    } rows[] = {{"s tril 0", TrB_TRIL, 0},   {"s tril -1", TrB_TRIL, -1},      {"s triu 1", TrB_TRIU, 1},
                {"s diag 2", TrB_DIAG, 2},   {"s offdiag -1", TrB_OFFDIAG, -1}, {"s rowle 0", TrB_ROWLE, 0},
                {"s rowgt 1", TrB_ROWGT, 1}, {"s colle 0", TrB_COLLE, 0},      {"s colgt 0", TrB_COLGT, 0}};
    static const struct {
        const char *title;
        TrB_IndexUnaryOp test;
    } values[] = {{"s valueeq 5", TrB_VALUEEQ}, {"s valuene 5", TrB_VALUENE}, {"s valuelt 5", TrB_VALUELT},
                  {"s valuele 5", TrB_VALUELE}, {"s valuegt 5", TrB_VALUEGT}, {"s valuege 5", TrB_VALUEGE}};
    TrB_Matrix c = matrix_of(TrB_UINT64, 3, 3), e = matrix_of(TrB_BOOL, 2, 3);
    for (size_t k = 0; k < sizeof rows / sizeof rows[0]; k++) {
        OK(TrB_Matrix_select_INT64(&pass, c, TrB_NO_MATRIX, TrB_NO_ACCUM, rows[k].test, s, rows[k].k, TrB_DEFAULT));
        show_matrix(rows[k].title, c);
    }
    for (size_t k = 0; k < sizeof values / sizeof values[0]; k++) {
        OK(TrB_Matrix_select_UINT64(&pass, c, TrB_NO_MATRIX, TrB_NO_ACCUM, values[k].test, s, 5, TrB_DEFAULT));
        show_matrix(values[k].title, c);
    }
    OK(TrB_Matrix_select_INT64(&pass, c, TrB_NO_MATRIX, TrB_NO_ACCUM, TrB_TRIL, s, -1, TrB_TRAN));
    show_matrix("s turned, tril -1", c);
    OK(TrB_Matrix_select_UINT64(&pass, c, s, TrB_PLUS, TrB_VALUEGE, s, 7, TrB_TRAN));
    show_matrix("to which s turned, valuege 7, is added inside of s", c);
    OK(TrB_Matrix_select_INT64(&pass, e, TrB_NO_MATRIX, TrB_NO_ACCUM, TrB_COLGT, t, 1, TrB_DEFAULT));
    show_truths("t colgt 1", e);
    OK(TrB_Matrix_select_BOOL(&pass, e, TrB_NO_MATRIX, TrB_NO_ACCUM, TrB_VALUELT, t, true, TrB_DEFAULT));
    show_truths("t valuelt true", e);
}

/* ---- Larger matrices --------------------------------------------------------------------------- */

static void kroneckers(void)
{
    TrB_Matrix d = matrix_of(TrB_UINT64, 2, 2), b = matrix_of(TrB_UINT64, 2, 2), c = matrix_of(TrB_UINT64, 4, 4);
    TrB_Matrix e = matrix_of(TrB_UINT64, 6, 4);
    OK(TrB_Matrix_build_UINT64(&pass, d, (TrB_Index[]){0, 1}, (TrB_Index[]){0, 1}, (uint64_t[]){2, 3}, 2, TrB_PLUS));
    OK(TrB_Matrix_build_UINT64(&pass, b, (TrB_Index[]){0, 1}, (TrB_Index[]){1, 0}, (uint64_t[]){10, 20}, 2, TrB_PLUS));
    OK(TrB_Matrix_kronecker_BinaryOp(&pass, c, TrB_NO_MATRIX, TrB_NO_ACCUM, TrB_TIMES, d, b, TrB_DEFAULT));
    show_matrix("d kronecker b by times", c);
    OK(TrB_Matrix_kronecker_BinaryOp(&pass, c, TrB_NO_MATRIX, TrB_NO_ACCUM, TrB_MINUS, b, d, TrB_DEFAULT));
    show_matrix("b kronecker d by minus", c);
    OK(TrB_Matrix_kronecker_BinaryOp(&pass, c, TrB_NO_MATRIX, TrB_NO_ACCUM, TrB_FIRST, b, b, TrB_TRAN1));
    show_matrix("b kronecker b turned by first", c);
    OK(TrB_Matrix_kronecker_BinaryOp(&pass, e, TrB_NO_MATRIX, TrB_NO_ACCUM, TrB_PLUS, a, d, TrB_TRAN));
    show_matrix("a turned kronecker d by plus", e);
    REFUSED(TrB_DIMENSION_MISMATCH, "a kronecker d into 6 x 4",
            TrB_Matrix_kronecker_BinaryOp(&pass, e, TrB_NO_MATRIX, TrB_NO_ACCUM, TrB_PLUS, a, d, TrB_DEFAULT));
}

static void diagonals(void)
{
    TrB_Vector large = vector_of(TrB_BOOL, LARGEST), one = vector_of(TrB_UINT64, 1);
    TrB_Matrix made, none = {LARGEST};
    TrB_Index nrows, ncols;
    OK(TrB_Matrix_diag(&pass, &made, u, 1));
    show_matrix("u on the diagonal 1", made);
    OK(TrB_Matrix_diag(&pass, &made, q, -2));
    show_truths("q on the diagonal -2", made);
    OK(TrB_Matrix_size(&pass, &nrows, &ncols, made));
    printf("which is %" PRIu64 " x %" PRIu64 "\n", nrows, ncols);
    REFUSED(TrB_INVALID_VALUE, "the largest vector on the diagonal 1", TrB_Matrix_diag(&pass, &none, large, 1));
    OK(TrB_Matrix_diag(&pass, &made, large, 0));
    OK(TrB_Matrix_size(&pass, &nrows, &ncols, made));
    printf("on the diagonal 0 it is %" PRIu64 " x %" PRIu64 "\n", nrows, ncols);
    OK(TrB_Vector_setElement_UINT64(&pass, one, 3, 0));
    OK(TrB_Matrix_diag(&pass, &made, one, 1 - (int64_t)LARGEST));
    show_matrix("3 on the lowest diagonal that there is", made);
    REFUSED(TrB_INVALID_VALUE, "3 on a diagonal above all", TrB_Matrix_diag(&pass, &none, one, (int64_t)LARGEST));
    REFUSED(TrB_INVALID_VALUE, "the diagonal 2^32", TrB_Matrix_diag(&pass, &none, one, (int64_t)LARGEST + 1));
    REFUSED(TrB_INVALID_VALUE, "the diagonal -2^32", TrB_Matrix_diag(&pass, &none, one, -(int64_t)LARGEST - 1));
    OK(TrB_Vector_free(&pass, one));
    REFUSED(TrB_UNINITIALIZED_OBJECT, "a freed vector on a diagonal", TrB_Matrix_diag(&pass, &none, one, 0));
    HOLDS(none.id == LARGEST);
}

/* ---- Refusals ---------------------------------------------------------------------------------- */

/* A bit of an input that the operation does not read transposed is refused. */
static void bits(void)
{
    const TrB_Descriptor both = TrB_TRAN | TrB_TRAN1, past = 32;
    const TrB_Matrix m = TrB_NO_MATRIX;
    const TrB_Vector n = TrB_NO_VECTOR;
    const TrB_BinaryOp z = TrB_NO_ACCUM;
    REFUSED(TrB_INVALID_VALUE, "mxm with a bit past the last", TrB_mxm(&pass, s, m, z, TrB_PLUS_TIMES, s, s, past));
    REFUSED(TrB_INVALID_VALUE, "mxv, tran1", TrB_mxv(&pass, u, n, z, TrB_PLUS_TIMES, s, u, TrB_TRAN1));
    REFUSED(TrB_INVALID_VALUE, "vxm, tran", TrB_vxm(&pass, u, n, z, TrB_PLUS_TIMES, u, s, TrB_TRAN));
    REFUSED(TrB_INVALID_VALUE, "vxm, both", TrB_vxm(&pass, u, n, z, TrB_PLUS_TIMES, u, s, both));
    REFUSED(TrB_INVALID_VALUE, "reduce, tran1", TrB_Matrix_reduce(&pass, u, n, z, TrB_PLUS, s, TrB_TRAN1));
    REFUSED(TrB_INVALID_VALUE, "eWiseAdd of vectors, tran1",
            TrB_Vector_eWiseAdd(&pass, u, n, z, TrB_PLUS, u, u, TrB_TRAN1));
    REFUSED(TrB_INVALID_VALUE, "eWiseMult of vectors, tran1",
            TrB_Vector_eWiseMult(&pass, u, n, z, TrB_PLUS, u, u, TrB_TRAN1));
    REFUSED(TrB_INVALID_VALUE, "transpose, tran1", TrB_transpose(&pass, s, m, z, s, TrB_TRAN1));
    REFUSED(TrB_INVALID_VALUE, "kronecker with a bit past the last",
            TrB_Matrix_kronecker_BinaryOp(&pass, s, m, z, TrB_PLUS, s, s, past));
    REFUSED(TrB_INVALID_VALUE, "apply, tran1", TrB_Matrix_apply(&pass, s, m, z, TrB_AINV, s, TrB_TRAN1));
    REFUSED(TrB_INVALID_VALUE, "apply with a first value, tran",
            TrB_Matrix_apply_BinaryOp1st_UINT64(&pass, s, m, z, TrB_MINUS, 9, s, TrB_TRAN));
    REFUSED(TrB_INVALID_VALUE, "apply with a first truth value, both",
            TrB_Matrix_apply_BinaryOp1st_BOOL(&pass, t, m, z, TrB_LOR, true, t, both));
    REFUSED(TrB_INVALID_VALUE, "apply with a second value, tran1",
            TrB_Matrix_apply_BinaryOp2nd_UINT64(&pass, s, m, z, TrB_MINUS, s, 9, TrB_TRAN1));
    REFUSED(TrB_INVALID_VALUE, "apply with a second truth value, tran1",
            TrB_Matrix_apply_BinaryOp2nd_BOOL(&pass, t, m, z, TrB_LOR, t, true, TrB_TRAN1));
    REFUSED(TrB_INVALID_VALUE, "apply of a vector, tran", TrB_Vector_apply(&pass, u, n, z, TrB_AINV, u, TrB_TRAN));
    REFUSED(TrB_INVALID_VALUE, "apply of a vector with a first value, tran1",
            TrB_Vector_apply_BinaryOp1st_UINT64(&pass, u, n, z, TrB_MINUS, 9, u, TrB_TRAN1));
    REFUSED(TrB_INVALID_VALUE, "apply of a vector with a first truth value, tran1",
            TrB_Vector_apply_BinaryOp1st_BOOL(&pass, q, n, z, TrB_LOR, true, q, TrB_TRAN1));
    REFUSED(TrB_INVALID_VALUE, "apply of a vector with a second value, tran",
            TrB_Vector_apply_BinaryOp2nd_UINT64(&pass, u, n, z, TrB_MINUS, u, 9, TrB_TRAN));
    REFUSED(TrB_INVALID_VALUE, "apply of a vector with a second truth value, tran",
            TrB_Vector_apply_BinaryOp2nd_BOOL(&pass, q, n, z, TrB_LOR, q, true, TrB_TRAN));
    REFUSED(TrB_INVALID_VALUE, "select by places, tran1", TrB_Matrix_select_INT64(&pass, s, m, z, TrB_TRIL, s, 0, TrB_TRAN1));
    REFUSED(TrB_INVALID_VALUE, "select by values, both", TrB_Matrix_select_UINT64(&pass, s, m, z, TrB_VALUEEQ, s, 0, both));
    REFUSED(TrB_INVALID_VALUE, "select by truth values, tran1",
            TrB_Matrix_select_BOOL(&pass, t, m, z, TrB_VALUEEQ, t, true, TrB_TRAN1));
    REFUSED(TrB_INVALID_VALUE, "select of a vector by places, tran",
            TrB_Vector_select_INT64(&pass, u, n, z, TrB_ROWLE, u, 0, TrB_TRAN));
    REFUSED(TrB_INVALID_VALUE, "select of a vector by values, tran",
            TrB_Vector_select_UINT64(&pass, u, n, z, TrB_VALUEEQ, u, 0, TrB_TRAN));
    REFUSED(TrB_INVALID_VALUE, "select of a vector by truth values, tran",
            TrB_Vector_select_BOOL(&pass, q, n, z, TrB_VALUEEQ, q, true, TrB_TRAN));
}

/* Numbers that stand for nothing, and domains and shapes that do not fit. */
static void others(void)
{
    const TrB_Matrix m = TrB_NO_MATRIX;
    const TrB_Vector n = TrB_NO_VECTOR;
    const TrB_BinaryOp z = TrB_NO_ACCUM;
    REFUSED(TrB_INVALID_VALUE, "no such unary operator", TrB_Matrix_apply(&pass, s, m, z, (TrB_UnaryOp)6, s, TrB_DEFAULT));
    REFUSED(TrB_INVALID_VALUE, "no unary operator", TrB_Vector_apply(&pass, u, n, z, (TrB_UnaryOp)0, u, TrB_DEFAULT));
    REFUSED(TrB_INVALID_VALUE, "no such test",
            TrB_Matrix_select_UINT64(&pass, s, m, z, (TrB_IndexUnaryOp)15, s, 0, TrB_DEFAULT));
    REFUSED(TrB_INVALID_VALUE, "a test of values by places",
            TrB_Matrix_select_INT64(&pass, s, m, z, TrB_VALUEEQ, s, 0, TrB_DEFAULT));
    REFUSED(TrB_INVALID_VALUE, "a test of places by values",
            TrB_Vector_select_UINT64(&pass, u, n, z, TrB_ROWLE, u, 0, TrB_DEFAULT));
    REFUSED(TrB_INVALID_VALUE, "rowle of a number below 0",
            TrB_Matrix_select_INT64(&pass, s, m, z, TrB_ROWLE, s, -1, TrB_DEFAULT));
    REFUSED(TrB_INVALID_VALUE, "tril 2^32",
            TrB_Matrix_select_INT64(&pass, s, m, z, TrB_TRIL, s, (int64_t)LARGEST + 1, TrB_DEFAULT));
    REFUSED(TrB_INVALID_VALUE, "triu -2^32",
            TrB_Matrix_select_INT64(&pass, s, m, z, TrB_TRIU, s, -(int64_t)LARGEST - 1, TrB_DEFAULT));
    REFUSED(TrB_DOMAIN_MISMATCH, "lnot of numbers", TrB_Matrix_apply(&pass, s, m, z, TrB_LNOT, s, TrB_DEFAULT));
    REFUSED(TrB_DOMAIN_MISMATCH, "numbers into truth values", TrB_transpose(&pass, t, m, z, a, TrB_TRAN));
    REFUSED(TrB_DOMAIN_MISMATCH, "a truth value for numbers",
            TrB_Vector_apply_BinaryOp2nd_BOOL(&pass, u, n, z, TrB_LOR, u, true, TrB_DEFAULT));
    REFUSED(TrB_DOMAIN_MISMATCH, "an operator on truth values and a number",
            TrB_Matrix_apply_BinaryOp1st_UINT64(&pass, s, m, z, TrB_LOR, 1, s, TrB_DEFAULT));
    REFUSED(TrB_DOMAIN_MISMATCH, "numbers against a truth value",
            TrB_Vector_select_BOOL(&pass, u, n, z, TrB_VALUEEQ, u, true, TrB_DEFAULT));
    REFUSED(TrB_DIMENSION_MISMATCH, "a transposed into its own shape", TrB_transpose(&pass, a, m, z, a, TrB_DEFAULT));
    REFUSED(TrB_DIMENSION_MISMATCH, "a second input that does not fit transposed",
            TrB_mxm(&pass, s, m, z, TrB_PLUS_TIMES, s, a, TrB_TRAN1));
    REFUSED(TrB_DIMENSION_MISMATCH, "entries of another shape",
            TrB_Matrix_select_INT64(&pass, s, m, z, TrB_TRIL, a, 0, TrB_DEFAULT));
    REFUSED(TrB_DIMENSION_MISMATCH, "a mask of another shape",
            TrB_Matrix_apply(&pass, s, a, z, TrB_AINV, s, TrB_DEFAULT));
    show_matrix("a is as it was", a);
    show_matrix("s is as it was", s);
    show_truths("t is as it was", t);
    show_vector("u is as it was", u);
    show_vector_truths("q is as it was", q);
}

int main(void)
{
    fill();
    all_entries();
    transposes();
    second_inputs();
    applies();
    selects_of_vectors();
    selects_of_matrices();
    kroneckers();
    diagonals();
    bits();
    others();
    TrB_free(&pass);
    return 0;
}

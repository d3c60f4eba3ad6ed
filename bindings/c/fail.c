/* A fixed list of calls with one allocation refused, or all from one on, for each allocation in turn.
 *
 *     fail once       one allocation is refused. A call that is refused memory is made again, and then
 *                     answers as it does where memory is there.
 *     fail on         one allocation and all after it are refused. The first call that is refused memory
 *                     ends the list.
 *
 * The list is made once with nothing refused. At each allocation a child goes on in which it is refused. With a
 * number K at the end there is one child, in which the K-th is.
 *
 * Whatever is refused: no call answers anything but TrB_OUT_OF_MEMORY or what it answers where memory is
 * there, but that a change of a chain may be answered TrB_ORDER_FULL; and when the passes are freed, all that
 * was allocated has been given back, but for the block of numbers that TrB_open tells of.
 *
 * Ends with status 0 where all was as it should be, and with 1 where something was not, or nothing was allocated.
 *
 * The linker's --wrap has malloc, calloc, realloc and free of this program and of the library lead here:
 *
 *     cc -std=c11 -O2 -Wl,--wrap=malloc,--wrap=calloc,--wrap=realloc,--wrap=free \
 *         -o fail fail.c libgrb_c.a liblibc_c.a -lpthread
 */
#define _POSIX_C_SOURCE 200809L

#include "trowelheath.h"

#include <stdio.h>
#include <stdlib.h>
#include <string.h>
#include <sys/wait.h>
#include <unistd.h>

enum { PASSED = 0, FAILED = 1 };
enum { ROOM = 400, PASSES = 2, SIZE = 64 };

/* Rows of a full matrix, of which the square is dear: more than 2^20 multiplications. */
enum { SIDE = 102, FULL = SIDE * SIDE };

/* ---- Memory ------------------------------------------------------------------------------------ */

void *__real_malloc(size_t size);
void *__real_calloc(size_t count, size_t size);
void *__real_realloc(void *block, size_t size);
void __real_free(void *block);
void *__wrap_malloc(size_t size);
void *__wrap_calloc(size_t count, size_t size);
void *__wrap_realloc(void *block, size_t size);
void __wrap_free(void *block);

static unsigned long allocations; /* how many were asked for */
static unsigned long refused_at;  /* which of them is refused, from 1; none where it is 0 */
static bool refuses_on;           /* and so are all after it */
static long blocks;               /* how many are not given back */
static bool is_counted;           /* the list has begun, and allocations are counted */

#define HOLDS(statement)                                                                         \
    do {                                                                                         \
        if (!(statement)) {                                                                      \
            fprintf(stderr, "allocation %lu refused: line %d: %s does not hold\n", refused_at,   \
                    __LINE__, #statement);                                                       \
            exit(FAILED);                                                                        \
        }                                                                                        \
    } while (0)

static TrB_Pass *idle;  /* helps whenever a call asks for memory, in the middle of it, as another thread may; or none */
static uint32_t helped; /* how many blocks it made */

static void lend_hand(void)
{
    TrB_Pass *pass = idle;
    uint32_t made;
    if (pass != NULL) {
        idle = NULL;
        HOLDS(TrB_help(pass, &made) == TrB_SUCCESS);
        helped += made;
        idle = pass;
    }
}

/* How many children run side by side. */
enum { LANES = 2 };

static struct {
    pid_t process; /* or 0 */
    unsigned long refused_at;
} children[LANES];

static unsigned long chosen; /* the one allocation that is refused, from 1, or 0: each is */

/* Waits for a child, which is to end as it should. */
static void wait_for_child(void)
{
    int status = 0;
    pid_t process = wait(&status);
    for (size_t k = 0; k < LANES; k++) {
        if (children[k].process == process) {
            if (!WIFEXITED(status) || WEXITSTATUS(status) != PASSED) {
                fprintf(stderr, "allocation %lu refused: ended with %d\n", children[k].refused_at, status);
                exit(FAILED);
            }
            children[k].process = 0;
        }
    }
}

/* Goes on in a child in which this allocation is refused, and here where it is not. */
static void refuse_in_child(void)
{
    size_t lane = 0;
    while (children[lane].process != 0) {
        lane++;
        if (lane == LANES) {
            wait_for_child();
            lane = 0;
        }
    }
    pid_t process = fork();
    HOLDS(process >= 0);
    if (process == 0) {
        refused_at = allocations;
    } else {
        children[lane].process = process;
        children[lane].refused_at = allocations;
    }
}

static bool is_refused(void)
{
    lend_hand();
    if (!is_counted) {
        return false;
    }
    allocations++;
    if (refused_at == 0 && (chosen == 0 || chosen == allocations)) {
        refuse_in_child();
    }
    return refused_at > 0 && (allocations == refused_at || (refuses_on && allocations > refused_at));
}

void *__wrap_malloc(size_t size)
{
    void *block = is_refused() ? NULL : __real_malloc(size);
    blocks += block != NULL;
    return block;
}

void *__wrap_calloc(size_t count, size_t size)
{
    void *block = is_refused() ? NULL : __real_calloc(count, size);
    blocks += block != NULL;
    return block;
}

void *__wrap_realloc(void *old, size_t size)
{
    if (is_refused()) {
        return NULL;
    }
    bool had_block = old != NULL;
    void *block = __real_realloc(old, size);
    if (block != NULL) {
        blocks += !had_block;
    } else if (size == 0) {
        blocks -= had_block;
    }
    return block;
}

void __wrap_free(void *block)
{
    blocks -= block != NULL;
    __real_free(block);
}

/* ---- Calls ------------------------------------------------------------------------------------- */

static unsigned long refusals; /* how many calls were refused memory */

/* Makes the call, once more where its status `info` tells that memory was refused and memory is there again. Ends the
 * list where memory is refused from now on, and the program where the status is another than this one. */
#define TRIED(call, tells_refused, status)                                 \
    do {                                                                   \
        TrB_Info info = (call);                                            \
        if (tells_refused) {                                               \
            HOLDS(refused_at > 0);                                         \
            refusals++;                                                    \
            if (refuses_on) {                                              \
                return false;                                              \
            }                                                              \
            info = (call);                                                 \
        }                                                                  \
        HOLDS(info == (status));                                           \
    } while (0)

#define ANSWERS(call, status) TRIED(call, info == TrB_OUT_OF_MEMORY, status)

#define OK(call) ANSWERS(call, TrB_SUCCESS)

/* Makes a change of a chain. Where memory is refused to its next generation, the change is refused since there is
 * no room, and made again. */
#define GOES_ON(call) TRIED(call, info == TrB_ORDER_FULL || info == TrB_OUT_OF_MEMORY, TrB_SUCCESS)

/* A chain of SIZE vertices, as arrays. */
static TrB_Index rows[SIZE - 1], columns[SIZE - 1];
static uint64_t numbers[SIZE - 1];
static bool truths[SIZE - 1];

static void draw_chain(void)
{
    for (size_t k = 0; k < SIZE - 1; k++) {
        rows[k] = k;
        columns[k] = k + 1;
        numbers[k] = k + 1;
        truths[k] = k % 2 == 0;
    }
}

/* A full matrix of ones, as arrays. */
static TrB_Index full_rows[FULL], full_columns[FULL];
static uint64_t ones[FULL];

static void draw_full(void)
{
    for (size_t k = 0; k < FULL; k++) {
        full_rows[k] = k / SIDE;
        full_columns[k] = k % SIDE;
        ones[k] = 1;
    }
}

/* Matrices: builds, entries and operations. Answers false where memory is refused from now on, as the
 * functions below do. */
static bool make_matrices(TrB_Pass *pass, TrB_Matrix *a)
{
    TrB_Matrix c, t, copy;
    uint64_t x;
    bool truth;
    TrB_Index nvals, nrows, ncols;
    OK(TrB_Matrix_new(pass, a, TrB_UINT64, SIZE, SIZE));
    OK(TrB_Matrix_build_UINT64(pass, *a, rows, columns, numbers, SIZE - 1, TrB_PLUS));
    ANSWERS(TrB_Matrix_build_UINT64(pass, *a, rows, columns, numbers, SIZE - 1, TrB_PLUS), TrB_OUTPUT_NOT_EMPTY);
    OK(TrB_Matrix_new(pass, &t, TrB_BOOL, SIZE, SIZE));
    OK(TrB_Matrix_build_BOOL(pass, t, rows, columns, truths, SIZE - 1, TrB_LOR));
    OK(TrB_Matrix_reduce_BOOL(pass, &truth, TrB_LAND, t));
    HOLDS(!truth);
    OK(TrB_Matrix_new(pass, &c, TrB_UINT64, SIZE, SIZE));
    OK(TrB_mxm(pass, c, TrB_NO_MATRIX, TrB_NO_ACCUM, TrB_PLUS_TIMES, *a, *a, TrB_DEFAULT));
    OK(TrB_Matrix_extractElement_UINT64(pass, &x, c, 1, 3));
    HOLDS(x == 2 * 3);
    OK(TrB_Matrix_eWiseAdd(pass, c, TrB_NO_MATRIX, TrB_PLUS, TrB_PLUS, c, *a, TrB_DEFAULT));
    OK(TrB_Matrix_eWiseMult(pass, c, t, TrB_NO_ACCUM, TrB_TIMES, c, *a, TrB_DEFAULT));
    OK(TrB_Matrix_nvals(pass, &nvals, c));
    HOLDS(nvals == (SIZE - 2) + (SIZE - 1)); /* paths of two edges and of one */
    OK(TrB_Matrix_dup(pass, &copy, c));
    OK(TrB_Matrix_resize(pass, copy, SIZE / 2, SIZE));
    OK(TrB_Matrix_clear(pass, copy));
    OK(TrB_Matrix_size(pass, &nrows, &ncols, copy));
    HOLDS(nrows == SIZE / 2 && ncols == SIZE);
    OK(TrB_Matrix_free(pass, copy));
    ANSWERS(TrB_Matrix_nvals(pass, &nvals, copy), TrB_UNINITIALIZED_OBJECT);
    ANSWERS(TrB_mxm(pass, c, TrB_NO_MATRIX, TrB_NO_ACCUM, TrB_LOR_LAND, *a, *a, TrB_DEFAULT), TrB_DOMAIN_MISMATCH);
    return true;
}

/* Vectors, by another pass than the one that made the matrix. */
static bool make_vectors(TrB_Pass *pass, TrB_Matrix a)
{
    TrB_Vector u, w;
    TrB_Index indices[SIZE], nvals = 1;
    uint64_t values[SIZE], x;
    OK(TrB_Vector_new(pass, &u, TrB_UINT64, SIZE));
    OK(TrB_Vector_build_UINT64(pass, u, columns, numbers, SIZE - 1, TrB_MIN));
    OK(TrB_Vector_new(pass, &w, TrB_UINT64, SIZE));
    OK(TrB_mxv(pass, w, TrB_NO_VECTOR, TrB_NO_ACCUM, TrB_PLUS_TIMES, a, u, TrB_DEFAULT));
    OK(TrB_vxm(pass, w, u, TrB_PLUS, TrB_MIN_PLUS, u, a, TrB_STRUCTURE));
    OK(TrB_Vector_eWiseAdd(pass, w, TrB_NO_VECTOR, TrB_NO_ACCUM, TrB_MAX, w, u, TrB_DEFAULT));
    OK(TrB_Vector_eWiseMult(pass, w, u, TrB_NO_ACCUM, TrB_MIN, w, u, TrB_COMP));
    OK(TrB_Matrix_reduce(pass, u, w, TrB_NO_ACCUM, TrB_PLUS, a, TrB_REPLACE | TrB_TRAN));
    ANSWERS(TrB_Vector_extractTuples_UINT64(pass, indices, values, &nvals, u), TrB_INSUFFICIENT_SPACE);
    HOLDS(nvals == SIZE - 1);
    OK(TrB_Vector_extractTuples_UINT64(pass, indices, values, &nvals, u));
    for (size_t k = 0; k < SIZE - 1; k++) {
        HOLDS(indices[k] == k + 1 && values[k] == k + 1);
    }
    OK(TrB_Vector_removeElement(pass, u, 1));
    OK(TrB_Vector_reduce_UINT64(pass, &x, TrB_PLUS, u));
    HOLDS(x == (uint64_t)SIZE * (SIZE - 1) / 2 - 1);
    return true;
}

/* The number of entries is this one. The count is a read that needs all of the work before. */
#define MATRIX_HAS(count, c)                                               \
    do {                                                                   \
        TrB_Index found;                                                   \
        OK(TrB_Matrix_nvals(pass, &found, c));                             \
        HOLDS(found == (count));                                           \
    } while (0)

#define VECTOR_HAS(count, w)                                               \
    do {                                                                   \
        TrB_Index found;                                                   \
        OK(TrB_Vector_nvals(pass, &found, w));                             \
        HOLDS(found == (count));                                           \
    } while (0)

/* Matrices turned, mapped, filtered and laid out; of numbers. */
static bool make_terms(TrB_Pass *pass, TrB_Matrix a)
{
    TrB_Matrix c, pair, wide;
    TrB_Vector v;
    uint64_t x;
    OK(TrB_Matrix_new(pass, &c, TrB_UINT64, SIZE, SIZE));
    OK(TrB_transpose(pass, c, TrB_NO_MATRIX, TrB_NO_ACCUM, a, TrB_DEFAULT));
    OK(TrB_Matrix_extractElement_UINT64(pass, &x, c, 3, 2));
    HOLDS(x == 3);
    OK(TrB_mxm(pass, c, TrB_NO_MATRIX, TrB_NO_ACCUM, TrB_PLUS_TIMES, a, a, TrB_TRAN1));
    MATRIX_HAS(SIZE - 1, c);
    OK(TrB_Matrix_eWiseAdd(pass, c, TrB_NO_MATRIX, TrB_NO_ACCUM, TrB_PLUS, a, a, TrB_TRAN1));
    MATRIX_HAS(2 * (SIZE - 1), c);
    OK(TrB_Matrix_apply(pass, c, TrB_NO_MATRIX, TrB_NO_ACCUM, TrB_AINV, a, TrB_TRAN));
    OK(TrB_Matrix_extractElement_UINT64(pass, &x, c, 3, 2));
    HOLDS(x == UINT64_MAX - 2);
    OK(TrB_Matrix_apply_BinaryOp1st_UINT64(pass, c, a, TrB_PLUS, TrB_MINUS, 100, a, TrB_STRUCTURE));
    OK(TrB_Matrix_apply_BinaryOp2nd_UINT64(pass, c, a, TrB_NO_ACCUM, TrB_MINUS, a, 1, TrB_REPLACE));
    OK(TrB_Matrix_extractElement_UINT64(pass, &x, c, 2, 3));
    HOLDS(x == 2);
    MATRIX_HAS(SIZE - 1, c);
    OK(TrB_Matrix_select_INT64(pass, c, TrB_NO_MATRIX, TrB_NO_ACCUM, TrB_ROWLE, a, 9, TrB_DEFAULT));
    MATRIX_HAS(10, c);
    OK(TrB_Matrix_select_UINT64(pass, c, a, TrB_NO_ACCUM, TrB_VALUEGT, a, SIZE / 2, TrB_REPLACE));
    MATRIX_HAS(SIZE / 2 - 1, c);
    OK(TrB_Vector_new(pass, &v, TrB_UINT64, 2));
    OK(TrB_Vector_build_UINT64(pass, v, rows, numbers, 2, TrB_PLUS));
    OK(TrB_Matrix_diag(pass, &pair, v, 0));
    MATRIX_HAS(2, pair);
    OK(TrB_Matrix_new(pass, &wide, TrB_UINT64, 2 * SIZE, 2 * SIZE));
    OK(TrB_Matrix_kronecker_BinaryOp(pass, wide, TrB_NO_MATRIX, TrB_NO_ACCUM, TrB_TIMES, pair, a, TrB_TRAN1));
    MATRIX_HAS(2 * (SIZE - 1), wide);
    ANSWERS(TrB_Matrix_apply(pass, c, TrB_NO_MATRIX, TrB_NO_ACCUM, TrB_LNOT, a, TrB_DEFAULT), TrB_DOMAIN_MISMATCH);
    ANSWERS(TrB_transpose(pass, wide, TrB_NO_MATRIX, TrB_NO_ACCUM, a, TrB_DEFAULT), TrB_DIMENSION_MISMATCH);
    OK(TrB_Matrix_free(pass, c));
    OK(TrB_Matrix_free(pass, pair));
    OK(TrB_Matrix_free(pass, wide));
    OK(TrB_Vector_free(pass, v));
    return true;
}

/* The same of truth values: every other one is true. */
static bool make_truths(TrB_Pass *pass)
{
    TrB_Matrix t, c;
    OK(TrB_Matrix_new(pass, &t, TrB_BOOL, SIZE, SIZE));
    OK(TrB_Matrix_build_BOOL(pass, t, rows, columns, truths, SIZE - 1, TrB_LOR));
    OK(TrB_Matrix_new(pass, &c, TrB_BOOL, SIZE, SIZE));
    OK(TrB_Matrix_apply(pass, c, t, TrB_NO_ACCUM, TrB_LNOT, t, TrB_DEFAULT));
    MATRIX_HAS(SIZE / 2, c);
    OK(TrB_Matrix_apply_BinaryOp1st_BOOL(pass, c, TrB_NO_MATRIX, TrB_LOR, TrB_LAND, true, t, TrB_DEFAULT));
    MATRIX_HAS(SIZE - 1, c);
    OK(TrB_Matrix_apply_BinaryOp2nd_BOOL(pass, c, TrB_NO_MATRIX, TrB_NO_ACCUM, TrB_LXOR, t, true, TrB_TRAN));
    MATRIX_HAS(SIZE - 1, c);
    OK(TrB_Matrix_select_BOOL(pass, c, TrB_NO_MATRIX, TrB_NO_ACCUM, TrB_VALUELT, t, true, TrB_DEFAULT));
    MATRIX_HAS(SIZE / 2 - 1, c);
    OK(TrB_Matrix_free(pass, t));
    OK(TrB_Matrix_free(pass, c));
    return true;
}

/* The same of vectors, of either domain, and a product with a second input that is read transposed. */
static bool make_lists(TrB_Pass *pass, TrB_Matrix a)
{
    TrB_Vector u, w, q, p;
    uint64_t x;
    OK(TrB_Vector_new(pass, &u, TrB_UINT64, SIZE));
    OK(TrB_Vector_build_UINT64(pass, u, columns, numbers, SIZE - 1, TrB_MIN));
    OK(TrB_Vector_new(pass, &w, TrB_UINT64, SIZE));
    OK(TrB_vxm(pass, w, TrB_NO_VECTOR, TrB_NO_ACCUM, TrB_PLUS_TIMES, u, a, TrB_TRAN1));
    OK(TrB_Vector_extractElement_UINT64(pass, &x, w, 4));
    HOLDS(x == 5 * 5);
    OK(TrB_Vector_apply(pass, w, TrB_NO_VECTOR, TrB_NO_ACCUM, TrB_BNOT, u, TrB_DEFAULT));
    OK(TrB_Vector_extractElement_UINT64(pass, &x, w, 4));
    HOLDS(x == UINT64_MAX - 4);
    OK(TrB_Vector_apply_BinaryOp1st_UINT64(pass, w, u, TrB_PLUS, TrB_MINUS, 100, u, TrB_STRUCTURE));
    OK(TrB_Vector_apply_BinaryOp2nd_UINT64(pass, w, TrB_NO_VECTOR, TrB_NO_ACCUM, TrB_MINUS, u, 1, TrB_DEFAULT));
    OK(TrB_Vector_extractElement_UINT64(pass, &x, w, 4));
    HOLDS(x == 3);
    OK(TrB_Vector_select_INT64(pass, w, TrB_NO_VECTOR, TrB_NO_ACCUM, TrB_ROWGT, u, 9, TrB_DEFAULT));
    VECTOR_HAS(SIZE - 10, w);
    OK(TrB_Vector_select_UINT64(pass, w, u, TrB_NO_ACCUM, TrB_VALUELE, u, 9, TrB_REPLACE));
    VECTOR_HAS(9, w);
    OK(TrB_Vector_new(pass, &q, TrB_BOOL, SIZE));
    OK(TrB_Vector_build_BOOL(pass, q, columns, truths, SIZE - 1, TrB_LOR));
    OK(TrB_Vector_new(pass, &p, TrB_BOOL, SIZE));
    OK(TrB_Vector_apply_BinaryOp1st_BOOL(pass, p, q, TrB_NO_ACCUM, TrB_LXOR, true, q, TrB_DEFAULT));
    VECTOR_HAS(SIZE / 2, p);
    OK(TrB_Vector_apply_BinaryOp2nd_BOOL(pass, p, TrB_NO_VECTOR, TrB_LOR, TrB_LAND, q, false, TrB_DEFAULT));
    VECTOR_HAS(SIZE - 1, p);
    OK(TrB_Vector_select_BOOL(pass, p, TrB_NO_VECTOR, TrB_NO_ACCUM, TrB_VALUENE, q, false, TrB_DEFAULT));
    VECTOR_HAS(SIZE / 2, p);
    OK(TrB_Vector_free(pass, u));
    OK(TrB_Vector_free(pass, w));
    OK(TrB_Vector_free(pass, q));
    OK(TrB_Vector_free(pass, p));
    return true;
}

/* Many changes of one matrix with reads between them, waits, and what one pass takes over of another. */
static bool serve(TrB_Pass *passes, TrB_Matrix a)
{
    uint32_t evaluated;
    TrB_Index nvals;
    for (TrB_Index k = 0; k < 2 * SIZE; k++) {
        uint64_t x;
        TrB_Pass *pass = &passes[k % PASSES];
        OK(TrB_Matrix_setElement_UINT64(pass, a, k, k % SIZE, 0));
        OK(TrB_Matrix_extractElement_UINT64(pass, &x, a, k % SIZE, 0));
        HOLDS(x == k);
        if (k % 50 == 0) {
            OK(TrB_Matrix_wait(pass, a, TrB_COMPLETE));
            OK(TrB_Matrix_wait(pass, a, TrB_MATERIALIZE));
        }
    }
    OK(TrB_prepare(&passes[0], &evaluated));
    OK(TrB_meet(&passes[1], &passes[0]));
    OK(TrB_adopt(&passes[1], &passes[0]));
    OK(TrB_Matrix_nvals(&passes[1], &nvals, a));
    HOLDS(nvals == (SIZE - 1) + SIZE);
    OK(TrB_release(&passes[1]));
    OK(TrB_Matrix_nvals(&passes[1], &nvals, a));
    HOLDS(nvals == (SIZE - 1) + SIZE);
    return true;
}

static bool read_least(TrB_Pass *pass, TrB_Matrix c)
{
    uint64_t least;
    OK(TrB_Matrix_reduce_UINT64(pass, &least, TrB_MIN, c));
    HOLDS(least == SIDE);
    return true;
}

/* A dear product, which one pass makes by blocks, and another helps whenever that asks for memory. Where memory is
 * refused to who helps alone, the product is made all the same. */
static bool multiply(TrB_Pass *passes)
{
    TrB_Matrix full, c;
    uint64_t count;
    TrB_Index nvals;
    OK(TrB_Matrix_new(&passes[0], &full, TrB_UINT64, SIDE, SIDE));
    OK(TrB_Matrix_build_UINT64(&passes[0], full, full_rows, full_columns, ones, FULL, TrB_PLUS));
    OK(TrB_Matrix_new(&passes[0], &c, TrB_UINT64, SIDE, SIDE));
    OK(TrB_mxm(&passes[0], c, TrB_NO_MATRIX, TrB_NO_ACCUM, TrB_PLUS_TIMES, full, full, TrB_DEFAULT));
    idle = &passes[1];
    bool is_read = read_least(&passes[0], c);
    idle = NULL;
    if (!is_read) {
        return false;
    }
    OK(TrB_blocks(&passes[1], &count));
    HOLDS(count >= helped && (helped > 0 || refused_at > 0));
    OK(TrB_Matrix_nvals(&passes[1], &nvals, c));
    HOLDS(nvals == FULL);
    OK(TrB_Matrix_free(&passes[0], full));
    OK(TrB_Matrix_free(&passes[0], c));
    return true;
}

/* A successor, whose second pass goes on with the matrix. What one of the two stores changes is not in the other. */
static bool go_on(TrB_Pass *passes, TrB_Pass *next, TrB_Matrix a)
{
    uint64_t needed = 0;
    TrB_Index nvals;
    OK(TrB_succeed(&passes[0], &needed, ROOM, next, PASSES));
    OK(TrB_Matrix_setElement_UINT64(&next[1], a, 1, 0, SIZE - 1));
    OK(TrB_Matrix_nvals(&next[0], &nvals, a));
    HOLDS(nvals == (SIZE - 1) + SIZE + 1);
    OK(TrB_Matrix_clear(&passes[1], a));
    OK(TrB_Matrix_nvals(&passes[0], &nvals, a));
    HOLDS(nvals == 0);
    OK(TrB_Matrix_nvals(&next[1], &nvals, a));
    HOLDS(nvals == (SIZE - 1) + SIZE + 1);
    return true;
}

/* A chain of some generations, in which temporaries are made and freed. */
static bool go_round(TrB_Pass *links)
{
    TrB_Vector kept;
    TrB_Index nvals;
    uint64_t generation;
    OK(TrB_chain_open(8, links, PASSES));
    GOES_ON(TrB_Vector_new(&links[0], &kept, TrB_UINT64, SIZE));
    for (TrB_Index k = 0; k < SIZE / 4; k++) {
        TrB_Pass *pass = &links[k % PASSES];
        TrB_Vector made;
        GOES_ON(TrB_Vector_new(pass, &made, TrB_UINT64, SIZE));
        GOES_ON(TrB_Vector_setElement_UINT64(pass, made, k, k));
        GOES_ON(TrB_Vector_eWiseAdd(pass, kept, TrB_NO_VECTOR, TrB_NO_ACCUM, TrB_PLUS, kept, made, TrB_DEFAULT));
        GOES_ON(TrB_Vector_free(pass, made));
    }
    OK(TrB_Vector_nvals(&links[0], &nvals, kept));
    HOLDS(nvals == SIZE / 4);
    OK(TrB_chain_generation(&links[0], &generation));
    HOLDS(generation >= SIZE / 2 / 8);
    TrB_free(&links[1]);
    OK(TrB_chain_seat(&links[0], 1, &links[1]));
    OK(TrB_Vector_nvals(&links[1], &nvals, kept));
    HOLDS(nvals == SIZE / 4);
    return true;
}

static bool make_all(TrB_Pass *passes, TrB_Pass *next, TrB_Pass *links)
{
    TrB_Matrix a;
    OK(TrB_open(ROOM, passes, PASSES));
    return make_matrices(&passes[0], &a) && make_vectors(&passes[1], a) && make_terms(&passes[0], a) &&
           make_truths(&passes[1]) && make_lists(&passes[0], a) && serve(passes, a) && multiply(passes) &&
           go_on(passes, next, a) && go_round(links);
}

int main(int argc, char **argv)
{
    if (argc < 2 || argc > 3 || (strcmp(argv[1], "once") != 0 && strcmp(argv[1], "on") != 0)) {
        fprintf(stderr, "usage: fail once [K], or fail on [K]\n");
        return FAILED;
    }
    draw_chain();
    draw_full();
    TrB_Pass passes[PASSES] = {TRB_PASS_INIT}, next[PASSES] = {TRB_PASS_INIT}, links[PASSES] = {TRB_PASS_INIT};
    long before = blocks;
    refuses_on = strcmp(argv[1], "on") == 0;
    chosen = argc == 3 ? strtoul(argv[2], NULL, 10) : 0;
    is_counted = true;

    bool is_whole = make_all(passes, next, links);
    for (size_t t = 0; t < PASSES; t++) {
        TrB_free(&passes[t]);
        TrB_free(&next[t]);
        TrB_free(&links[t]);
    }

    /* The block of numbers is what is left. It is asked for first. */
    HOLDS(blocks == before + (refuses_on && refused_at == 1 ? 0 : 1));
    HOLDS(refusals <= (refused_at > 0));
    HOLDS(is_whole || refusals == 1);
    HOLDS(allocations >= refused_at && allocations >= chosen && allocations > 0);
    if (refused_at == 0) {
        for (size_t k = 0; k < LANES; k++) {
            while (children[k].process != 0) {
                wait_for_child();
            }
        }
        fprintf(stderr, "%lu allocations\n", allocations);
    }
    return PASSED;
}

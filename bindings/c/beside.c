/* Times the store next to another case of the same: several results, in any order, again, overwritten, shared and
 * adopted; work beside a product that nobody reads; sets with gets, totals or waits between them; a product that
 * several passes read; and a successor next to the builds of its objects. Where a read is to make just so many calls
 * of the history, that is asked for too.
 *
 *     beside
 *
 * Times go to standard error: the least of five rounds, in seconds, and the first divided by the second.
 * Standard output has one line for each pair of cases that both left what they should.
 *
 *     cc -std=c11 -O2 -o beside beside.c libgrb_c.a liblibc_c.a -lpthread
 */
#define _POSIX_C_SOURCE 200809L

#include "check.h"
#include "trowelheath.h"

#include <inttypes.h>
#include <stdio.h>
#include <stdlib.h>
#include <time.h>

enum {
    ROUNDS = 5,
    TURNS = 1000,    /* turns beside the product */
    DEAR = 8000,     /* entries of the column and of the row that the product is of: it has 64 million */
    SIDE = 16384,    /* rows and columns of the matrix that is set in */
    BUILT = 200000,  /* entries that it is built of */
    SETS = 20000,    /* sets in it */
    READ_AFTER = 2000,
    VERTICES = 256,  /* rows and columns of the matrix that is squared */
    EDGES = 8000,
    BATCHES = 30,
    BATCH = 100,     /* sets before each square is read */
    ROWS = 2000,     /* rows and columns of the matrices that results are made of */
    CELLS = 12000,   /* drawn cells of each */
    RESULTS = 8,     /* results of a store at most */
    REFRESHED = 20,  /* turns in which each result is made anew */
    READERS = 8,     /* passes that count one product */
    EDITS = 10000,   /* sets in a vector */
    MEETS = 200,     /* meetings after so many calls */
    VECTORS = 64,    /* vectors of a store that is succeeded */
    EACH = 15625     /* entries of each */
};

/* One round: what it leaves, to be compared. It answers the seconds of the part that is timed. */
typedef double Round(uint64_t number, uint64_t *left);

static double now(void)
{
    struct timespec t;
    clock_gettime(CLOCK_MONOTONIC, &t);
    return (double)t.tv_sec + 1e-9 * (double)t.tv_nsec;
}

/* Mixes the bits of a number (splitmix64). */
static uint64_t mix(uint64_t x)
{
    x += 0x9E3779B97F4A7C15u;
    x = (x ^ (x >> 30)) * 0xBF58476D1CE4E5B9u;
    x = (x ^ (x >> 27)) * 0x94D049BB133111EBu;
    return x ^ (x >> 31);
}

static void *space(size_t count)
{
    void *block = calloc(count, sizeof(uint64_t));
    HOLDS(block != NULL);
    return block;
}

/* Builds a matrix of drawn cells, each with a 1. */
static TrB_Matrix build(TrB_Pass *pass, TrB_Index side, uint64_t count, uint64_t seed)
{
    TrB_Matrix a;
    TrB_Index *i = space(count), *j = space(count);
    uint64_t *x = space(count);
    for (uint64_t k = 0; k < count; k++) {
        i[k] = mix(seed + 2 * k) % side;
        j[k] = mix(seed + 2 * k + 1) % side;
        x[k] = 1;
    }
    OK(TrB_Matrix_new(pass, &a, TrB_UINT64, side, side));
    OK(TrB_Matrix_build_UINT64(pass, a, i, j, x, count, TrB_MAX));
    free(i);
    free(j);
    free(x);
    return a;
}

/* Enters the product of a column and a row of ones, or none where `enters` is 0. */
static void enter_product(TrB_Pass *pass, uint64_t enters)
{
    TrB_Matrix column, row, product;
    TrB_Index *zeros = space(DEAR), *rising = space(DEAR);
    uint64_t *ones = space(DEAR);
    for (uint64_t k = 0; k < DEAR; k++) {
        rising[k] = k;
        ones[k] = 1;
    }
    OK(TrB_Matrix_new(pass, &column, TrB_UINT64, DEAR, 1));
    OK(TrB_Matrix_new(pass, &row, TrB_UINT64, 1, DEAR));
    OK(TrB_Matrix_new(pass, &product, TrB_UINT64, DEAR, DEAR));
    OK(TrB_Matrix_build_UINT64(pass, column, rising, zeros, ones, DEAR, TrB_PLUS));
    OK(TrB_Matrix_build_UINT64(pass, row, zeros, rising, ones, DEAR, TrB_PLUS));
    if (enters) {
        OK(TrB_mxm(pass, product, TrB_NO_MATRIX, TrB_NO_ACCUM, TrB_PLUS_TIMES, column, row, TrB_DEFAULT));
    }
    free(zeros);
    free(rising);
    free(ones);
}

/* Turns of two sets, a sum of two vectors and three reads, beside the product or without it. */
static double turns(uint64_t enters, uint64_t *left)
{
    TrB_Pass pass = TRB_PASS_INIT;
    TrB_Vector sums, ones;
    OK(TrB_open(4096, &pass, 1));
    enter_product(&pass, enters);
    OK(TrB_Vector_new(&pass, &sums, TrB_UINT64, UINT32_MAX));
    OK(TrB_Vector_new(&pass, &ones, TrB_UINT64, UINT32_MAX));
    double start = now();
    for (uint64_t k = 0; k < TURNS; k++) {
        uint64_t first, count;
        OK(TrB_Vector_setElement_UINT64(&pass, sums, k, k));
        OK(TrB_Vector_setElement_UINT64(&pass, ones, 1, k));
        OK(TrB_Vector_eWiseAdd(&pass, sums, TrB_NO_VECTOR, TrB_NO_ACCUM, TrB_PLUS, sums, ones, TrB_DEFAULT));
        OK(TrB_Vector_extractElement_UINT64(&pass, &first, sums, 0));
        OK(TrB_Vector_nvals(&pass, &count, sums));
        OK(TrB_Vector_reduce_UINT64(&pass, left, TrB_PLUS, ones));
        HOLDS(first == k + 1 && count == k + 1 && *left == k + 1);
    }
    double seconds = now() - start;
    TrB_free(&pass);
    return seconds;
}

/* Sets with a wait for all objects after each so many, by the first of these passes; another reads now and then. */
static double sets(uint32_t npasses, uint64_t every, uint64_t *left)
{
    TrB_Pass passes[2] = {TRB_PASS_INIT};
    OK(TrB_open(SETS + 16, passes, npasses));
    TrB_Pass *pass = &passes[0];
    TrB_Matrix a = build(pass, SIDE, BUILT, 1);
    OK(TrB_Matrix_wait(pass, a, TrB_MATERIALIZE));
    double start = now();
    for (uint64_t k = 1; k <= SETS; k++) {
        TrB_Index i = mix(2 * k) % SIDE, j = mix(2 * k + 1) % SIDE;
        OK(TrB_Matrix_setElement_UINT64(pass, a, k, i, j));
        if (k % every == 0) {
            OK(TrB_Matrix_wait(pass, a, TrB_MATERIALIZE));
        }
        if (npasses == 2 && k % READ_AFTER == 0) {
            uint64_t found;
            OK(TrB_Matrix_extractElement_UINT64(&passes[1], &found, a, i, j));
            HOLDS(found == k);
        }
    }
    OK(TrB_Matrix_wait(pass, a, TrB_MATERIALIZE));
    double seconds = now() - start;
    OK(TrB_Matrix_reduce_UINT64(pass, left, TrB_PLUS, a));
    for (uint32_t k = 0; k < npasses; k++) {
        TrB_free(&passes[k]);
    }
    return seconds;
}

/* Turns of a set in a loaded matrix and a total of it, or, where `totals` is 0, a get. */
static double questions(uint64_t totals, uint64_t *left)
{
    TrB_Pass pass = TRB_PASS_INIT;
    OK(TrB_open(4096, &pass, 1));
    TrB_Matrix a = build(&pass, SIDE, BUILT, 1);
    OK(TrB_Matrix_wait(&pass, a, TrB_MATERIALIZE));
    double start = now();
    for (uint64_t k = 1; k <= TURNS; k++) {
        TrB_Index i = mix(2 * k) % SIDE, j = mix(2 * k + 1) % SIDE;
        OK(TrB_Matrix_setElement_UINT64(&pass, a, k, i, j));
        if (totals) {
            OK(TrB_Matrix_reduce_UINT64(&pass, left, TrB_PLUS, a));
        } else {
            OK(TrB_Matrix_extractElement_UINT64(&pass, left, a, i, j));
            HOLDS(*left == k);
        }
    }
    double seconds = now() - start;
    OK(TrB_Matrix_reduce_UINT64(&pass, left, TrB_PLUS, a));
    TrB_free(&pass);
    return seconds;
}

static double sets_by_one(uint64_t every, uint64_t *left)
{
    return sets(1, every, left);
}

static double sets_by_one_of_two(uint64_t every, uint64_t *left)
{
    return sets(2, every, left);
}

/* Sets in a matrix and its square in turn, of which an entry is read: by the pass that sets, or by so many others. */
static double squares(uint64_t readers, uint64_t *left)
{
    TrB_Pass passes[4] = {TRB_PASS_INIT};
    TrB_Matrix square;
    OK(TrB_open(4096, passes, 1 + readers));
    TrB_Pass *pass = &passes[0];
    TrB_Matrix a = build(pass, VERTICES, EDGES, 7);
    OK(TrB_Matrix_new(pass, &square, TrB_UINT64, VERTICES, VERTICES));
    OK(TrB_Matrix_nvals(pass, left, a));
    *left = 0;
    double start = now();
    for (uint64_t k = 0; k < BATCHES; k++) {
        for (uint64_t n = 0; n < BATCH; n++) {
            uint64_t draw = mix(3 * (k * BATCH + n));
            OK(TrB_Matrix_setElement_UINT64(pass, a, 1 + draw % 8, (draw >> 8) % VERTICES, (draw >> 16) % VERTICES));
        }
        OK(TrB_mxm(pass, square, TrB_NO_MATRIX, TrB_NO_ACCUM, TrB_PLUS_TIMES, a, a, TrB_DEFAULT));
        for (uint64_t r = 0; r < (readers == 0 ? 1 : readers); r++) {
            uint64_t found;
            TrB_Info info = TrB_Matrix_extractElement_UINT64(&passes[readers == 0 ? 0 : 1 + r], &found, square, k, k);
            HOLDS(info == TrB_SUCCESS || info == TrB_NO_VALUE);
            if (r == 0 && info == TrB_SUCCESS) {
                *left = mix(*left + found);
            }
        }
    }
    double seconds = now() - start;
    for (uint64_t k = 0; k <= readers; k++) {
        TrB_free(&passes[k]);
    }
    return seconds;
}

/* Vectors of a million entries in all: the time of their builds (0), of a successor with four passes (1), or of the
 * first read of one of these (2). */
static double successor(uint64_t which, uint64_t *left)
{
    TrB_Pass pass = TRB_PASS_INIT, next[4] = {TRB_PASS_INIT};
    TrB_Vector vectors[VECTORS];
    TrB_Index *indices = space(EACH), nvals;
    uint64_t *values = space(EACH), needed = 0;
    for (uint64_t k = 0; k < EACH; k++) {
        indices[k] = 2 * k;
        values[k] = mix(k);
    }
    OK(TrB_open(4096, &pass, 1));
    double start = now(), seconds;
    for (size_t v = 0; v < VECTORS; v++) {
        OK(TrB_Vector_new(&pass, &vectors[v], TrB_UINT64, 2 * EACH));
        OK(TrB_Vector_build_UINT64(&pass, vectors[v], indices, values, EACH, TrB_PLUS));
        OK(TrB_Vector_nvals(&pass, &nvals, vectors[v]));
    }
    double built = now();
    OK(TrB_succeed(&pass, &needed, 4096, next, 4));
    double succeeded = now();
    OK(TrB_Vector_extractElement_UINT64(&next[3], left, vectors[VECTORS - 1], 2));
    double read = now();
    HOLDS(nvals == EACH && *left == values[1]);
    seconds = which == 0 ? built - start : which == 1 ? succeeded - built : read - succeeded;
    for (size_t k = 0; k < 4; k++) {
        TrB_free(&next[k]);
    }
    TrB_free(&pass);
    free(indices);
    free(values);
    return seconds;
}

/* How many calls of the history the last call of the pass evaluated. */
static uint32_t made(TrB_Pass *pass)
{
    TrB_Facts facts;
    OK(TrB_facts(pass, &facts));
    return facts.made;
}

/* A result, and the matrix of which it is the square. */
typedef struct {
    TrB_Matrix of, square;
} Result;

static Result result(TrB_Pass *pass, uint64_t seed)
{
    Result r = {build(pass, ROWS, CELLS, seed), {0}};
    OK(TrB_Matrix_new(pass, &r.square, TrB_UINT64, ROWS, ROWS));
    return r;
}

static void enter_square(TrB_Pass *pass, Result r)
{
    OK(TrB_mxm(pass, r.square, TrB_NO_MATRIX, TrB_NO_ACCUM, TrB_PLUS_TIMES, r.of, r.of, TrB_DEFAULT));
}

static uint64_t count(TrB_Pass *pass, TrB_Matrix a)
{
    TrB_Index nvals;
    OK(TrB_Matrix_nvals(pass, &nvals, a));
    return nvals;
}

/* Turns in which each of so many results is entered anew, after a set in what it is made of, and counted: in the
 * order entered, or in reverse. Each count makes a set and a product. */
static double counted(uint64_t results, uint64_t reverse, uint64_t *left)
{
    TrB_Pass pass = TRB_PASS_INIT;
    Result r[RESULTS];
    OK(TrB_open(4096, &pass, 1));
    for (uint64_t k = 0; k < results; k++) {
        r[k] = result(&pass, 100 * k);
        enter_square(&pass, r[k]);
        count(&pass, r[k].square);
    }
    *left = 0;
    double start = now();
    for (uint64_t turn = 0; turn < REFRESHED; turn++) {
        for (uint64_t k = 0; k < results; k++) {
            uint64_t draw = mix(turn * RESULTS + k);
            OK(TrB_Matrix_setElement_UINT64(&pass, r[k].of, 1, draw % ROWS, (draw >> 32) % ROWS));
            enter_square(&pass, r[k]);
        }
        for (uint64_t k = 0; k < results; k++) {
            *left += count(&pass, r[reverse ? results - 1 - k : k].square);
            HOLDS(made(&pass) == 2);
        }
    }
    double seconds = now() - start;
    TrB_free(&pass);
    return seconds;
}

static double two_results(uint64_t reverse, uint64_t *left)
{
    return counted(2, reverse, left);
}

static double four_results(uint64_t reverse, uint64_t *left)
{
    return counted(4, reverse, left);
}

static double eight_results(uint64_t reverse, uint64_t *left)
{
    return counted(8, reverse, left);
}

/* Two results that were made anew 50 times are counted in turn, so many times in all, and the first time of each makes
 * them. */
static double counted_again(uint64_t counts, uint64_t *left)
{
    TrB_Pass pass = TRB_PASS_INIT;
    Result r[2];
    OK(TrB_open(4096, &pass, 1));
    for (uint64_t k = 0; k < 2; k++) {
        r[k] = result(&pass, 100 * k);
    }
    for (uint64_t turn = 0; turn < 50; turn++) {
        for (uint64_t k = 0; k < 2; k++) {
            OK(TrB_Matrix_setElement_UINT64(&pass, r[k].of, 1, turn, turn));
            enter_square(&pass, r[k]);
        }
    }
    *left = 0;
    double start = now();
    for (uint64_t k = 0; k < counts; k++) {
        *left = k < 2 ? *left + count(&pass, r[k].square) : *left;
        HOLDS(k < 2 || (count(&pass, r[k % 2].square) > 0 && made(&pass) == 0));
    }
    double seconds = now() - start;
    TrB_free(&pass);
    return seconds;
}

/* So many products into one matrix, each in place of the one before, and a count. */
static double overwritten(uint64_t products, uint64_t *left)
{
    TrB_Pass pass = TRB_PASS_INIT;
    OK(TrB_open(4096, &pass, 1));
    Result r = result(&pass, 0);
    count(&pass, r.of);
    double start = now();
    for (uint64_t k = 0; k < products; k++) {
        enter_square(&pass, r);
    }
    *left = count(&pass, r.square);
    double seconds = now() - start;
    HOLDS(made(&pass) == 1);
    TrB_free(&pass);
    return seconds;
}

/* Passes count one product in turn, beside another that nobody reads, or without it. The first of them makes it. */
static double shared(uint64_t unread, uint64_t *left)
{
    TrB_Pass passes[READERS] = {TRB_PASS_INIT};
    OK(TrB_open(4096, passes, READERS));
    Result read = result(&passes[0], 0), other = result(&passes[0], 100);
    enter_square(&passes[0], read);
    if (unread) {
        enter_square(&passes[0], other);
    }
    double start = now();
    for (size_t k = 0; k < READERS; k++) {
        *left = count(&passes[k], read.square);
        HOLDS(k == 0 ? made(&passes[k]) > 0 : made(&passes[k]) == 0);
    }
    double seconds = now() - start;
    for (size_t k = 0; k < READERS; k++) {
        TrB_free(&passes[k]);
    }
    return seconds;
}

/* A pass loads, counts one of two products, and prepares. The others adopt it and count both: the time of the first
 * count and of `prepare`, or of the others. */
static double adopted(uint64_t others, uint64_t *left)
{
    TrB_Pass passes[READERS] = {TRB_PASS_INIT};
    uint32_t evaluated;
    OK(TrB_open(4096, passes, READERS));
    Result r[2] = {result(&passes[0], 0), result(&passes[0], 100)};
    enter_square(&passes[0], r[0]);
    enter_square(&passes[0], r[1]);
    double start = now();
    *left = count(&passes[0], r[0].square);
    OK(TrB_prepare(&passes[0], &evaluated));
    double prepared = now();
    HOLDS(evaluated == 8);
    for (size_t k = 1; k < READERS; k++) {
        OK(TrB_adopt(&passes[k], &passes[0]));
        HOLDS(count(&passes[k], r[0].square) == *left && made(&passes[k]) == 0);
        HOLDS(count(&passes[k], r[1].square) > 0 && made(&passes[k]) == 0);
    }
    double end = now();
    for (size_t k = 0; k < READERS; k++) {
        TrB_free(&passes[k]);
    }
    return others ? end - prepared : prepared - start;
}

/* A vector of one entry is read after so many sets in another, beside a product that nobody reads: two calls. */
static double behind(uint64_t sets_before, uint64_t *left)
{
    TrB_Pass pass = TRB_PASS_INIT;
    TrB_Vector one, many;
    OK(TrB_open(65536, &pass, 1));
    enter_square(&pass, result(&pass, 0));
    OK(TrB_Vector_new(&pass, &one, TrB_UINT64, 8));
    OK(TrB_Vector_new(&pass, &many, TrB_UINT64, EDITS));
    OK(TrB_Vector_setElement_UINT64(&pass, one, 5, 1));
    for (uint64_t k = 0; k < sets_before; k++) {
        OK(TrB_Vector_setElement_UINT64(&pass, many, k, k));
    }
    double start = now();
    OK(TrB_Vector_extractElement_UINT64(&pass, left, one, 1));
    double seconds = now() - start;
    HOLDS(*left == 5 && made(&pass) == 2);
    TrB_free(&pass);
    return seconds;
}

/* Sets in a vector, with a get after each or after the last, by one pass or by two in turn that met. */
static double edits(uint32_t npasses, uint64_t each, uint64_t *left)
{
    TrB_Pass passes[2] = {TRB_PASS_INIT};
    TrB_Vector v;
    OK(TrB_open(65536, passes, npasses));
    OK(TrB_Vector_new(&passes[0], &v, TrB_UINT64, EDITS));
    if (npasses == 2) {
        OK(TrB_meet(&passes[1], &passes[0]));
    }
    double start = now();
    for (uint64_t k = 0; k < EDITS; k++) {
        TrB_Pass *pass = &passes[k % npasses];
        OK(TrB_Vector_setElement_UINT64(pass, v, k, mix(k) % EDITS));
        if (each || k + 1 == EDITS) {
            OK(TrB_Vector_extractElement_UINT64(pass, left, v, mix(k) % EDITS));
            HOLDS(*left == k);
        }
    }
    double seconds = now() - start;
    for (uint32_t k = 0; k < npasses; k++) {
        TrB_free(&passes[k]);
    }
    return seconds;
}

static double edits_by_one(uint64_t each, uint64_t *left)
{
    return edits(1, each, left);
}

static double edits_by_two(uint64_t each, uint64_t *left)
{
    return edits(2, each, left);
}

/* Meetings of two passes that both know so many calls and no other. */
static double meetings(uint64_t known, uint64_t *left)
{
    TrB_Pass passes[2] = {TRB_PASS_INIT};
    TrB_Vector v;
    OK(TrB_open(65536, passes, 2));
    OK(TrB_Vector_new(&passes[0], &v, TrB_UINT64, EDITS));
    for (uint64_t k = 1; k < known; k++) {
        OK(TrB_Vector_setElement_UINT64(&passes[0], v, k, k % EDITS));
    }
    OK(TrB_meet(&passes[1], &passes[0]));
    double start = now();
    for (uint64_t k = 0; k < MEETS; k++) {
        OK(TrB_meet(&passes[k % 2], &passes[1 - k % 2]));
    }
    *left = MEETS;
    double seconds = now() - start;
    TrB_free(&passes[0]);
    TrB_free(&passes[1]);
    return seconds;
}

/* Times a case and another in turn, which leave the same, and tells the least time of each. */
static void pair(const char *name, Round *round, uint64_t first, uint64_t second)
{
    double ours = 0, other = 0;
    uint64_t left = 0;
    for (int k = 0; k < ROUNDS; k++) {
        uint64_t one, two;
        double a = round(first, &one), b = round(second, &two);
        HOLDS(one == two && (k == 0 || one == left));
        left = one;
        ours = k == 0 || a < ours ? a : ours;
        other = k == 0 || b < other ? b : other;
    }
    fprintf(stderr, "%-44s %12.6f %12.6f %8.2f\n", name, ours, other, ours / other);
    printf("%s: right\n", name);
    fflush(stdout);
}

int main(void)
{
    pair("two results in reverse, in order", two_results, 1, 0);
    pair("four results in reverse, in order", four_results, 1, 0);
    pair("eight results in reverse, in order", eight_results, 1, 0);
    pair("40 counts of two results, 2 counts", counted_again, 40, 2);
    pair("100 products into one matrix, one product", overwritten, 100, 1);
    pair("a product that eight count beside one unread", shared, 1, 0);
    pair("counts of seven who adopted, what they adopted", adopted, 1, 0);
    pair("a get behind 10,000 other sets, behind none", behind, EDITS, 0);
    pair("10,000 sets, each with a get; and one get", edits_by_one, 1, 0);
    pair("the same by two passes in turn", edits_by_two, 1, 0);
    pair("meetings after 60,000 calls, after 600", meetings, 60000, 600);
    pair("turns beside a product that nobody reads", turns, 1, 0);
    pair("turns of a set and a total, and a get", questions, 1, 0);
    pair("sets by one pass, a wait after each 300", sets_by_one, 300, SETS);
    pair("sets by one pass, a wait after each 64", sets_by_one, 64, SETS);
    pair("sets by one of two, a wait after each 300", sets_by_one_of_two, 300, SETS);
    pair("sets by one of two, a wait after each 64", sets_by_one_of_two, 64, SETS);
    pair("squares that three passes read", squares, 3, 0);
    pair("a successor of 64 vectors, their builds", successor, 1, 0);
    pair("a first read of its last pass, the successor", successor, 2, 1);
    return EXIT_SUCCESS;
}

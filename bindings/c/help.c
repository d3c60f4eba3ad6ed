/* Passes make a dear product together: some only help, and two that read it at the same time make different
 * blocks of it. What each reads is what one pass makes alone, also where the two read different products.
 *
 *     cc -std=c11 -O2 -pthread -o help help.c libgrb_c.a liblibc_c.a
 */
#define _POSIX_C_SOURCE 200809L

#include "check.h"
#include "trowelheath.h"

#include <inttypes.h>
#include <pthread.h>
#include <stdatomic.h>
#include <stdio.h>
#include <time.h>

enum { SIDE = 128, SQUARE = SIDE * SIDE };
enum { READERS = 2, HELPERS = 3, PASSES = READERS + HELPERS, ROUNDS = 8, ROOM = 256 };
enum { VERTICES = 256, EDGES = VERTICES * (VERTICES - 1) / 2 };

/* In a graph with all edges each three vertices are a triangle: 256 * 255 * 254 / 6. */
enum { TRIANGLES = 2763520 };

/* Two full matrices have 104 * 104 * 104 = 1,124,864 products of entries, which is more than 2^20. */
enum { PAIR_SIDE = 104, PAIR_SQUARE = PAIR_SIDE * PAIR_SIDE, PAIR_ROUNDS = 20 };

static TrB_Index rows[EDGES], columns[EDGES];
static uint64_t values[EDGES];

static uint64_t blocks_of(TrB_Pass *pass)
{
    uint64_t count;
    OK(TrB_blocks(pass, &count));
    return count;
}

/* A matrix with a 1 wherever the arrays have a place. */
static TrB_Matrix ones_at(TrB_Pass *pass, TrB_Index side, TrB_Index nvals)
{
    TrB_Matrix a;
    OK(TrB_Matrix_new(pass, &a, TrB_UINT64, side, side));
    OK(TrB_Matrix_build_UINT64(pass, a, rows, columns, values, nvals, TrB_PLUS));
    return a;
}

/* Ones at all places of a matrix of SIDE rows. */
static TrB_Matrix full_matrix(TrB_Pass *pass)
{
    for (size_t k = 0; k < SQUARE; k++) {
        rows[k] = k / SIDE;
        columns[k] = k % SIDE;
        values[k] = 1;
    }
    return ones_at(pass, SIDE, SQUARE);
}

/* The graph with all edges, below the diagonal. */
static TrB_Matrix full_graph(TrB_Pass *pass)
{
    size_t k = 0;
    for (TrB_Index i = 0; i < VERTICES; i++) {
        for (TrB_Index j = 0; j < i; j++, k++) {
            rows[k] = i;
            columns[k] = j;
            values[k] = 1;
        }
    }
    return ones_at(pass, VERTICES, EDGES);
}

/* Multiplies the matrix of ones by itself: SIDE at each place. */
static void square(TrB_Pass *pass)
{
    TrB_Matrix a = full_matrix(pass), c;
    TrB_Index nvals = SQUARE;
    OK(TrB_Matrix_new(pass, &c, TrB_UINT64, SIDE, SIDE));
    OK(TrB_mxm(pass, c, TrB_NO_MATRIX, TrB_NO_ACCUM, TrB_PLUS_TIMES, a, a, TrB_DEFAULT));
    OK(TrB_Matrix_extractTuples_UINT64(pass, rows, columns, values, &nvals, c));
    HOLDS(nvals == SQUARE);
    for (size_t k = 0; k < SQUARE; k++) {
        HOLDS(rows[k] == k / SIDE && columns[k] == k % SIDE && values[k] == SIDE);
    }
}

/* Where no pass makes a dear product there is nothing to help with. Where there is no pass, nothing is told. */
static void help_nobody(void)
{
    TrB_Pass passes[2] = {TRB_PASS_INIT}, none = TRB_PASS_INIT;
    TrB_Matrix a, c;
    uint64_t x, count = 5;
    uint32_t made = 7;
    ANSWERS(TrB_help(&none, &made), TrB_UNINITIALIZED_OBJECT);
    ANSWERS(TrB_blocks(&none, &count), TrB_UNINITIALIZED_OBJECT);
    HOLDS(made == 7 && count == 5);

    OK(TrB_open(ROOM, passes, 2));
    OK(TrB_help(&passes[1], &made));
    HOLDS(made == 0 && blocks_of(&passes[1]) == 0);
    OK(TrB_Matrix_new(&passes[0], &a, TrB_UINT64, 2, 2));
    OK(TrB_Matrix_new(&passes[0], &c, TrB_UINT64, 2, 2));
    OK(TrB_Matrix_setElement_UINT64(&passes[0], a, 2, 0, 1));
    OK(TrB_Matrix_setElement_UINT64(&passes[0], a, 3, 1, 0));
    OK(TrB_mxm(&passes[0], c, TrB_NO_MATRIX, TrB_NO_ACCUM, TrB_PLUS_TIMES, a, a, TrB_DEFAULT));
    OK(TrB_Matrix_extractElement_UINT64(&passes[0], &x, c, 1, 1));
    HOLDS(x == 2 * 3);
    OK(TrB_help(&passes[1], &made));
    HOLDS(made == 0 && blocks_of(&passes[0]) == 0);
    TrB_free(&passes[0]);
    TrB_free(&passes[1]);
    printf("nothing dear: no blocks\n");
}

/* A pass that is alone in its store makes a dear product whole. */
static void multiply_alone(void)
{
    TrB_Pass pass = TRB_PASS_INIT;
    OK(TrB_open(ROOM, &pass, 1));
    square(&pass);
    HOLDS(blocks_of(&pass) == 0);
    TrB_free(&pass);
    printf("one pass: %d at each of %d places, no blocks\n", SIDE, SQUARE);
}

/* One of two makes it by blocks, which either tells. */
static void multiply_by_blocks(void)
{
    TrB_Pass passes[2] = {TRB_PASS_INIT};
    OK(TrB_open(ROOM, passes, 2));
    square(&passes[0]);
    HOLDS(blocks_of(&passes[0]) > 0 && blocks_of(&passes[1]) == blocks_of(&passes[0]));
    TrB_free(&passes[0]);
    TrB_free(&passes[1]);
    printf("two passes: %d at each of %d places, by blocks\n", SIDE, SQUARE);
}

/* What one thread has. The pass is its own; the graph is shared. */
typedef struct {
    TrB_Pass *pass;
    TrB_Matrix graph;
} Worker;

static atomic_bool is_over;

/* Helps until the readers are done. */
static void *help(void *argument)
{
    const Worker *worker = (const Worker *)argument;
    const struct timespec nap = {.tv_nsec = 100000};
    while (!atomic_load(&is_over)) {
        uint32_t made;
        OK(TrB_help(worker->pass, &made));
        if (made == 0) {
            nanosleep(&nap, NULL);
        }
    }
    return NULL;
}

/* Counts the triangles of the graph again and again, each time in a matrix of its own. */
static void *count(void *argument)
{
    const Worker *worker = (const Worker *)argument;
    for (int round = 0; round < ROUNDS; round++) {
        TrB_Matrix t;
        uint64_t triangles;
        OK(TrB_Matrix_new(worker->pass, &t, TrB_UINT64, VERTICES, VERTICES));
        OK(TrB_mxm(worker->pass, t, worker->graph, TrB_NO_ACCUM, TrB_PLUS_TIMES, worker->graph, worker->graph,
                   TrB_STRUCTURE));
        OK(TrB_Matrix_reduce_UINT64(worker->pass, &triangles, TrB_PLUS, t));
        HOLDS(triangles == TRIANGLES);
        OK(TrB_Matrix_free(worker->pass, t));
    }
    return NULL;
}

/* Two passes count the same triangles at the same time, and three help them. */
static void count_together(void)
{
    TrB_Pass passes[PASSES] = {TRB_PASS_INIT};
    Worker workers[PASSES];
    pthread_t threads[PASSES];
    OK(TrB_open(ROOM, passes, PASSES));
    TrB_Matrix graph = full_graph(&passes[0]);
    for (size_t k = 0; k < PASSES; k++) {
        workers[k] = (Worker){.pass = &passes[k], .graph = graph};
        HOLDS(pthread_create(&threads[k], NULL, k < READERS ? count : help, &workers[k]) == 0);
    }
    for (size_t k = 0; k < PASSES; k++) {
        if (k == READERS) {
            atomic_store(&is_over, true);
        }
        HOLDS(pthread_join(threads[k], NULL) == 0);
    }
    HOLDS(blocks_of(&passes[0]) > 0);
    for (size_t k = 0; k < PASSES; k++) {
        TrB_free(&passes[k]);
    }
    printf("%d passes, %d that help: %d triangles in each of %d rounds\n", READERS, HELPERS, TRIANGLES, ROUNDS);
}

/* A product that is read while another pass reads the square of the ones. All its entries are one number. */
typedef struct {
    TrB_Semiring semiring;
    bool is_by_twos;  /* the ones by the twos, and not by themselves */
    bool is_below;    /* below the diagonal alone */
    uint64_t value;
} Product;

static const Product square_of_ones = {{TrB_PLUS, TrB_TIMES}, false, false, PAIR_SIDE};

static const Product others[] = {
    {{TrB_MIN, TrB_PLUS}, false, false, 2},              /* the least sum of a one and a one */
    {{TrB_PLUS, TrB_PLUS}, false, false, 2 * PAIR_SIDE}, /* another operator of the same monoid: a sum of 104 twos */
    {{TrB_PLUS, TrB_TIMES}, true, false, 2 * PAIR_SIDE}, /* another second matrix: the same */
    {{TrB_PLUS, TrB_TIMES}, false, true, PAIR_SIDE},     /* another mask */
};

enum { OTHERS = sizeof others / sizeof others[0] };

/* The inputs and the outputs of the two readers, and the start of each step. */
typedef struct {
    TrB_Matrix ones, twos, below, outputs[READERS];
    pthread_barrier_t start;
} Pair;

/* What one thread has. The first reader calls for both products, and reads the square. */
typedef struct {
    TrB_Pass *pass;
    Pair *pair;
    size_t number;
} Partner;

/* Calls for both products. */
static void begin(TrB_Pass *pass, const Pair *pair, const Product *other)
{
    TrB_Matrix mask = other->is_below ? pair->below : TrB_NO_MATRIX;
    TrB_Matrix second = other->is_by_twos ? pair->twos : pair->ones;
    OK(TrB_Matrix_clear(pass, pair->outputs[1]));
    OK(TrB_mxm(pass, pair->outputs[0], TrB_NO_MATRIX, TrB_NO_ACCUM, TrB_PLUS_TIMES, pair->ones, pair->ones,
               TrB_DEFAULT));
    OK(TrB_mxm(pass, pair->outputs[1], mask, TrB_NO_ACCUM, other->semiring, pair->ones, second, TrB_STRUCTURE));
}

/* Reads the product, each entry of it. */
static void read_product(TrB_Pass *pass, TrB_Matrix c, const Product *product)
{
    static _Thread_local TrB_Index is[PAIR_SQUARE], js[PAIR_SQUARE];
    static _Thread_local uint64_t found[PAIR_SQUARE];
    TrB_Index count, nvals = PAIR_SQUARE, wanted = product->is_below ? PAIR_SIDE * (PAIR_SIDE - 1) / 2 : PAIR_SQUARE;
    uint64_t least, largest;
    OK(TrB_Matrix_nvals(pass, &count, c));
    OK(TrB_Matrix_reduce_UINT64(pass, &least, TrB_MIN, c));
    OK(TrB_Matrix_reduce_UINT64(pass, &largest, TrB_MAX, c));
    HOLDS(count == wanted && least == product->value && largest == product->value);
    OK(TrB_Matrix_extractTuples_UINT64(pass, is, js, found, &nvals, c));
    HOLDS(nvals == wanted);
    TrB_Index k = 0;
    for (TrB_Index i = 0; i < PAIR_SIDE; i++) {
        for (TrB_Index j = 0; j < (product->is_below ? i : PAIR_SIDE); j++, k++) {
            HOLDS(is[k] == i && js[k] == j && found[k] == product->value);
        }
    }
}

/* A reader of one of the two products, in one round after another. */
static void *read_apart(void *argument)
{
    const Partner *partner = (const Partner *)argument;
    Pair *pair = partner->pair;
    for (size_t round = 0; round < PAIR_ROUNDS * OTHERS; round++) {
        const Product *other = &others[round % OTHERS];
        if (partner->number == 0) {
            begin(partner->pass, pair, other);
        }
        pthread_barrier_wait(&pair->start);
        read_product(partner->pass, pair->outputs[partner->number], partner->number == 0 ? &square_of_ones : other);
        pthread_barrier_wait(&pair->start);
    }
    return NULL;
}

/* A matrix with this number at all places, or below the diagonal alone. */
static TrB_Matrix filled(TrB_Pass *pass, uint64_t number, bool is_below)
{
    TrB_Matrix a;
    TrB_Index nvals = 0;
    for (TrB_Index i = 0; i < PAIR_SIDE; i++) {
        for (TrB_Index j = 0; j < (is_below ? i : PAIR_SIDE); j++, nvals++) {
            rows[nvals] = i;
            columns[nvals] = j;
            values[nvals] = number;
        }
    }
    OK(TrB_Matrix_new(pass, &a, TrB_UINT64, PAIR_SIDE, PAIR_SIDE));
    OK(TrB_Matrix_build_UINT64(pass, a, rows, columns, values, nvals, TrB_PLUS));
    return a;
}

/* Two passes read different products at the same time, and a third helps: each has its own. */
static void multiply_apart(void)
{
    enum { MEMBERS = READERS + 1 };
    TrB_Pass passes[MEMBERS + 1] = {TRB_PASS_INIT}, *first = &passes[MEMBERS];
    Partner partners[READERS];
    pthread_t threads[MEMBERS];
    OK(TrB_open(ROOM, passes, MEMBERS + 1));
    Pair pair = {.ones = filled(first, 1, false), .twos = filled(first, 2, false), .below = filled(first, 1, true)};
    for (size_t k = 0; k < READERS; k++) {
        OK(TrB_Matrix_new(first, &pair.outputs[k], TrB_UINT64, PAIR_SIDE, PAIR_SIDE));
    }
    HOLDS(pthread_barrier_init(&pair.start, NULL, READERS) == 0);
    atomic_store(&is_over, false);
    Worker helper = {.pass = &passes[READERS]};
    HOLDS(pthread_create(&threads[READERS], NULL, help, &helper) == 0);
    for (size_t k = 0; k < READERS; k++) {
        partners[k] = (Partner){.pass = &passes[k], .pair = &pair, .number = k};
        HOLDS(pthread_create(&threads[k], NULL, read_apart, &partners[k]) == 0);
    }
    for (size_t k = 0; k < MEMBERS; k++) {
        if (k == READERS) {
            atomic_store(&is_over, true);
        }
        HOLDS(pthread_join(threads[k], NULL) == 0);
    }
    HOLDS(blocks_of(first) > 0);
    for (size_t k = 0; k <= MEMBERS; k++) {
        TrB_free(&passes[k]);
    }
    pthread_barrier_destroy(&pair.start);
    printf("%d passes read two products: each its own in each of %d rounds\n", READERS, PAIR_ROUNDS * OTHERS);
}

int main(void)
{
    help_nobody();
    multiply_alone();
    multiply_by_blocks();
    count_together();
    multiply_apart();
    return 0;
}

/* Times the store on graphs of three kinds, next to loops by hand, and next to SuiteSparse:GraphBLAS in the
 * same process where that is there.
 *
 *     bench [SCALE [THREADS [blocks]]]
 *
 * A graph has 2^SCALE vertices (12 where it is not given) and some 8 edges for each: drawn as R-MAT draws them,
 * drawn at random with 8 to each row, or those of a grid in which each vertex is joined with the 8 round it.
 * The service runs THREADS threads (4). Times go to standard error: the least of five rounds, in seconds, and
 * ours divided by theirs and by those by hand. In front of them stands the most memory that a round of each side
 * takes, in kilobytes, above what was held before it; under Linux alone. Standard output has one line for each thing
 * that was timed and was right in each round: what the store answers is, entry by entry, what the loop by hand makes,
 * and what SuiteSparse answers.
 *
 * At the end products are timed that passes make together, as bench_blocks.c tells: on a graph of four times as many
 * vertices, and of 16,384 at most, with some 25 edges for each. With the word `blocks` nothing else is timed.
 *
 *     cc -std=c11 -O2 -o bench bench.c bench_by_hand.c bench_blocks.c libgrb_c.a liblibc_c.a -lpthread
 *     cc -std=c11 -O2 -DTRB_SUITESPARSE -o bench bench.c bench_by_hand.c bench_blocks.c bench_suitesparse.c \
 *         libgrb_c.a liblibc_c.a -lpthread -lgraphblas
 */
#define _POSIX_C_SOURCE 200809L

#include "bench.h"

#include <inttypes.h>
#include <pthread.h>
#include <stdio.h>
#include <stdlib.h>
#include <string.h>
#include <time.h>
#ifdef __linux__
#include <malloc.h>
#include <sys/wait.h>
#include <unistd.h>
#endif

/* The largest grid has a thousand fronts, for each of which a search takes two changes. */
enum { ROOM = 32768, MOST_THREADS = 32 };

/* The products by blocks are of 2^14 vertices at most. */
enum { BLOCKS_SCALE = 14 };

bool reads_all = true;

double now(void)
{
    struct timespec t;
    clock_gettime(CLOCK_MONOTONIC, &t);
    return (double)t.tv_sec + 1e-9 * (double)t.tv_nsec;
}

void *space(uint64_t count, size_t size)
{
    void *block = calloc(count == 0 ? 1 : count, size);
    HOLDS(block != NULL);
    return block;
}

/* ---- The graphs -------------------------------------------------------------------------------- */

uint64_t vertices;
Tuples graph, turned, below, full, few, one;
Tuples pair = {3, (TrB_Index[]){0, 0, 1}, (TrB_Index[]){0, 1, 0}, (uint64_t[]){2, 3, 5}};
bool *truths;

static uint64_t scale;

Tuples room_for(uint64_t nvals, bool has_columns)
{
    Tuples made = {nvals, NULL, NULL, NULL};
    made.rows = (TrB_Index *)space(nvals, sizeof *made.rows);
    made.columns = has_columns ? (TrB_Index *)space(nvals, sizeof *made.columns) : NULL;
    made.values = (uint64_t *)space(nvals, sizeof *made.values);
    return made;
}

void free_tuples(Tuples *tuples)
{
    free(tuples->rows);
    free(tuples->columns);
    free(tuples->values);
}

uint64_t digest(const Tuples *tuples)
{
    uint64_t sum = 0;
    for (uint64_t k = 0; k < tuples->nvals; k++) {
        sum += digest_of(tuples->rows[k], tuples->columns == NULL ? 0 : tuples->columns[k], tuples->values[k]);
    }
    return sum;
}

bool are_edges(const Tuples *tuples)
{
    bool are_equal = tuples->nvals == graph.nvals;
    for (uint64_t k = 0; are_equal && k < graph.nvals; k++) {
        are_equal = tuples->rows[k] == graph.rows[k] && tuples->columns[k] == graph.columns[k] &&
                    tuples->values[k] == graph.values[k];
    }
    return are_equal;
}

uint64_t weight_of(TrB_Index i, TrB_Index j)
{
    return 1 + mix(i << 32 | j) % 255;
}

/* An edge is a number, of which the upper half is its row and the lower half its column. These functions give the
 * k-th, where there are 8 for each vertex; R-MAT has as many as are drawn. At each bit of the ends one of the four quarters is drawn, with chances
 * .57, .19, .19 and .05. */
static uint64_t rmat_edge(uint64_t k)
{
    uint64_t i = 0, j = 0;
    for (uint64_t bit = 1; bit <= scale; bit++) {
        uint64_t percent = mix(k * scale + bit) % 100;
        i = 2 * i + (percent >= 76);
        j = 2 * j + ((percent >= 57 && percent < 76) || percent >= 95);
    }
    return i << 32 | j;
}

/* Each row has one in each eighth of the columns. */
static uint64_t random_edge(uint64_t k)
{
    uint64_t i = k / 8, eighth = vertices / 8, first = k % 8 * eighth, j = first + mix(k) % eighth;
    if (i == j) {
        j = first + (j + 1 - first) % eighth;
    }
    return i << 32 | j;
}

/* To one of the eight vertices round a vertex; at the rim, where there is none, to itself. */
static uint64_t grid_edge(uint64_t k)
{
    uint64_t i = k / 8, place = k % 8 < 4 ? k % 8 : k % 8 + 1;
    uint64_t width = (uint64_t)1 << scale / 2, height = vertices / width;
    uint64_t x = i % width + place % 3 - 1, y = i / width + place / 3 - 1;
    return i << 32 | (x < width && y < height ? y * width + x : i);
}

static int compare(const void *left, const void *right)
{
    uint64_t x = *(const uint64_t *)left, y = *(const uint64_t *)right;
    return (x > y) - (x < y);
}

/* Puts edges in order, and gives each with its weight, or with 1: without loops, and once where it comes twice. */
static Tuples entries_of(uint64_t *edges, uint64_t count, bool has_weights)
{
    uint64_t kept = 0;
    qsort(edges, count, sizeof *edges, compare);
    for (uint64_t k = 0; k < count; k++) {
        if (edges[k] >> 32 != (edges[k] & UINT32_MAX) && (kept == 0 || edges[k] != edges[kept - 1])) {
            edges[kept++] = edges[k];
        }
    }
    Tuples made = room_for(kept, true);
    for (uint64_t k = 0; k < kept; k++) {
        made.rows[k] = edges[k] >> 32;
        made.columns[k] = edges[k] & UINT32_MAX;
        made.values[k] = has_weights ? weight_of(made.rows[k], made.columns[k]) : 1;
    }
    return made;
}

/* A vector with a value at so many indices, evenly from 0, of which the last is this one. */
static Tuples spread(uint64_t count, TrB_Index last)
{
    Tuples made = room_for(count, false);
    for (uint64_t k = 0; k < count; k++) {
        made.rows[k] = k + 1 == count ? last : k * (vertices / count);
        made.values[k] = made.rows[k] % 1000 + 1;
    }
    return made;
}

/* A vertex from which eight edges lead, or as near to that as there is. */
static TrB_Index typical(void)
{
    TrB_Index found = 0;
    uint64_t nearest = UINT64_MAX;
    for (uint64_t k = 0, degree = 1; k < graph.nvals; k++, degree++) {
        if (k + 1 == graph.nvals || graph.rows[k + 1] != graph.rows[k]) {
            uint64_t distance = degree < 8 ? 8 - degree : degree - 8;
            if (distance < nearest) {
                nearest = distance;
                found = graph.rows[k];
            }
            degree = 0;
        }
    }
    return found;
}

/* Draws so many edges. */
static void draw(uint64_t (*edge)(uint64_t k), uint64_t drawn)
{
    vertices = (uint64_t)1 << scale;
    uint64_t *edges = (uint64_t *)space(drawn, sizeof *edges);
    for (uint64_t k = 0; k < drawn; k++) {
        edges[k] = edge(k);
    }
    graph = entries_of(edges, drawn, true);
    truths = (bool *)space(graph.nvals, sizeof *truths);
    for (uint64_t k = 0; k < graph.nvals; k++) {
        truths[k] = true;
        edges[k] = graph.columns[k] << 32 | graph.rows[k];
    }
    turned = entries_of(edges, graph.nvals, true);
    for (uint64_t k = 0; k < graph.nvals; k++) {
        uint64_t i = graph.rows[k], j = graph.columns[k];
        edges[k] = i > j ? i << 32 | j : j << 32 | i;
    }
    below = entries_of(edges, graph.nvals, false);
    full = spread(vertices, vertices - 1);
    few = spread(vertices < FEW ? vertices : FEW, vertices - 1);
    one = spread(1, typical());
    free(edges);
}

static void forget(void)
{
    free_tuples(&graph);
    free_tuples(&turned);
    free_tuples(&below);
    free_tuples(&full);
    free_tuples(&few);
    free_tuples(&one);
    free(truths);
}

/* ---- The store --------------------------------------------------------------------------------- */

/* The graph, with its edges turned round, below the diagonal, of truth values, those turned round, the small matrix, and
 * the vectors. */
static TrB_Pass pass = TRB_PASS_INIT;
static TrB_Matrix a, b, l, t, back, two;
static TrB_Vector u, some, single;

static TrB_Matrix square_of(const Tuples *tuples, uint64_t side)
{
    TrB_Matrix c;
    OK(TrB_Matrix_new(&pass, &c, TrB_UINT64, side, side));
    OK(TrB_Matrix_build_UINT64(&pass, c, tuples->rows, tuples->columns, tuples->values, tuples->nvals, TrB_PLUS));
    return c;
}

static TrB_Matrix matrix_of(const Tuples *tuples)
{
    return square_of(tuples, vertices);
}

static TrB_Matrix truths_at(const Tuples *tuples)
{
    TrB_Matrix c;
    OK(TrB_Matrix_new(&pass, &c, TrB_BOOL, vertices, vertices));
    OK(TrB_Matrix_build_BOOL(&pass, c, tuples->rows, tuples->columns, truths, tuples->nvals, TrB_LOR));
    return c;
}

static TrB_Vector vector_of(const Tuples *tuples)
{
    TrB_Vector w;
    OK(TrB_Vector_new(&pass, &w, TrB_UINT64, vertices));
    OK(TrB_Vector_build_UINT64(&pass, w, tuples->rows, tuples->values, tuples->nvals, TrB_PLUS));
    return w;
}

static void load(void)
{
    TrB_Index nvals;
    OK(TrB_open(ROOM, &pass, 1));
    a = matrix_of(&graph);
    b = matrix_of(&turned);
    l = matrix_of(&below);
    t = truths_at(&graph);
    back = truths_at(&turned);
    two = square_of(&pair, PAIR);
    u = vector_of(&full);
    some = vector_of(&few);
    single = vector_of(&one);
    OK(TrB_Matrix_wait(&pass, a, TrB_MATERIALIZE));
    OK(TrB_Matrix_nvals(&pass, &nvals, a));
    HOLDS(nvals == graph.nvals);
}

/* Reads all entries. */
static void see_matrix(TrB_Matrix c, Outcome *outcome)
{
    if (!reads_all) {
        return;
    }
    Tuples found = room_for(outcome->nvals, true);
    OK(TrB_Matrix_extractTuples_UINT64(&pass, found.rows, found.columns, found.values, &found.nvals, c));
    HOLDS(found.nvals == outcome->nvals);
    outcome->digest = digest(&found);
    free_tuples(&found);
}

/* Reads all entries of a matrix of truth values, as 0 and 1. */
static void see_truths(TrB_Matrix c, Outcome *outcome)
{
    if (!reads_all) {
        return;
    }
    Tuples found = room_for(outcome->nvals, true);
    bool *values = (bool *)space(found.nvals, sizeof *values);
    OK(TrB_Matrix_extractTuples_BOOL(&pass, found.rows, found.columns, values, &found.nvals, c));
    HOLDS(found.nvals == outcome->nvals);
    for (uint64_t k = 0; k < found.nvals; k++) {
        found.values[k] = values[k];
    }
    outcome->digest = digest(&found);
    free(values);
    free_tuples(&found);
}

static void see_vector(TrB_Vector w, Outcome *outcome)
{
    if (!reads_all) {
        return;
    }
    Tuples found = room_for(outcome->nvals, false);
    OK(TrB_Vector_extractTuples_UINT64(&pass, found.rows, found.values, &found.nvals, w));
    HOLDS(found.nvals == outcome->nvals);
    outcome->digest = digest(&found);
    free_tuples(&found);
}

/* Times a call that writes this matrix, with a read that needs all of its work, and frees the matrix. Nothing
 * else is left to do when the time begins. */
static double time_in(TrB_Matrix c, TrB_Info (*enter)(TrB_Matrix c), void (*see)(TrB_Matrix c, Outcome *outcome),
                      Outcome *outcome)
{
    OK(TrB_Matrix_wait(&pass, c, TrB_MATERIALIZE));
    double start = now();
    OK(enter(c));
    OK(TrB_Matrix_nvals(&pass, &outcome->nvals, c));
    double seconds = now() - start;
    see(c, outcome);
    OK(TrB_Matrix_free(&pass, c));
    return seconds;
}

static double time_matrix(TrB_Info (*enter)(TrB_Matrix c), Outcome *outcome)
{
    TrB_Matrix c;
    OK(TrB_Matrix_new(&pass, &c, TrB_UINT64, vertices, vertices));
    return time_in(c, enter, see_matrix, outcome);
}

/* The same of a new vector. */
static double time_vector(TrB_Info (*enter)(TrB_Vector w), Outcome *outcome)
{
    TrB_Vector w;
    OK(TrB_Vector_new(&pass, &w, TrB_UINT64, vertices));
    OK(TrB_Vector_wait(&pass, w, TrB_MATERIALIZE));
    double start = now();
    OK(enter(w));
    OK(TrB_Vector_nvals(&pass, &outcome->nvals, w));
    double seconds = now() - start;
    see_vector(w, outcome);
    OK(TrB_Vector_free(&pass, w));
    return seconds;
}

static TrB_Info enter_build(TrB_Matrix c)
{
    return TrB_Matrix_build_UINT64(&pass, c, graph.rows, graph.columns, graph.values, graph.nvals, TrB_PLUS);
}

static TrB_Info enter_mxm(TrB_Matrix c)
{
    return TrB_mxm(&pass, c, TrB_NO_MATRIX, TrB_NO_ACCUM, TrB_PLUS_TIMES, a, a, TrB_DEFAULT);
}

static TrB_Info enter_mxm_bool(TrB_Matrix c)
{
    return TrB_mxm(&pass, c, TrB_NO_MATRIX, TrB_NO_ACCUM, TrB_LOR_LAND, t, t, TrB_DEFAULT);
}

static TrB_Info enter_triangles(TrB_Matrix c)
{
    return TrB_mxm(&pass, c, l, TrB_NO_ACCUM, TrB_PLUS_TIMES, l, l, TrB_STRUCTURE);
}

static TrB_Info enter_add(TrB_Matrix c)
{
    return TrB_Matrix_eWiseAdd(&pass, c, TrB_NO_MATRIX, TrB_NO_ACCUM, TrB_PLUS, a, b, TrB_DEFAULT);
}

static TrB_Info enter_mult(TrB_Matrix c)
{
    return TrB_Matrix_eWiseMult(&pass, c, TrB_NO_MATRIX, TrB_NO_ACCUM, TrB_TIMES, a, b, TrB_DEFAULT);
}

static TrB_Info enter_masked_add(TrB_Matrix c)
{
    return TrB_Matrix_eWiseAdd(&pass, c, l, TrB_PLUS, TrB_PLUS, a, b, TrB_STRUCTURE);
}

static TrB_Info enter_transpose(TrB_Matrix c)
{
    return TrB_transpose(&pass, c, TrB_NO_MATRIX, TrB_NO_ACCUM, a, TrB_DEFAULT);
}

static TrB_Info enter_apply(TrB_Matrix c)
{
    return TrB_Matrix_apply(&pass, c, TrB_NO_MATRIX, TrB_NO_ACCUM, TrB_AINV, a, TrB_DEFAULT);
}

static TrB_Info enter_select_below(TrB_Matrix c)
{
    return TrB_Matrix_select_INT64(&pass, c, TrB_NO_MATRIX, TrB_NO_ACCUM, TrB_TRIL, a, -1, TrB_DEFAULT);
}

static TrB_Info enter_select_heavy(TrB_Matrix c)
{
    return TrB_Matrix_select_UINT64(&pass, c, TrB_NO_MATRIX, TrB_NO_ACCUM, TrB_VALUEGT, a, LIGHT, TrB_DEFAULT);
}

static TrB_Info enter_kronecker(TrB_Matrix c)
{
    return TrB_Matrix_kronecker_BinaryOp(&pass, c, TrB_NO_MATRIX, TrB_NO_ACCUM, TrB_TIMES, a, two, TrB_DEFAULT);
}

static TrB_Info enter_mxv(TrB_Vector w)
{
    return TrB_mxv(&pass, w, TrB_NO_VECTOR, TrB_NO_ACCUM, TrB_PLUS_TIMES, a, u, TrB_DEFAULT);
}

static TrB_Info enter_mxv_min(TrB_Vector w)
{
    return TrB_mxv(&pass, w, TrB_NO_VECTOR, TrB_NO_ACCUM, TrB_MIN_PLUS, a, u, TrB_DEFAULT);
}

static TrB_Info enter_vxm(TrB_Vector w)
{
    return TrB_vxm(&pass, w, TrB_NO_VECTOR, TrB_NO_ACCUM, TrB_PLUS_TIMES, u, a, TrB_DEFAULT);
}

static TrB_Info enter_vxm_few(TrB_Vector w)
{
    return TrB_vxm(&pass, w, TrB_NO_VECTOR, TrB_NO_ACCUM, TrB_PLUS_TIMES, some, a, TrB_DEFAULT);
}

static TrB_Info enter_vxm_one(TrB_Vector w)
{
    return TrB_vxm(&pass, w, TrB_NO_VECTOR, TrB_NO_ACCUM, TrB_PLUS_TIMES, single, a, TrB_DEFAULT);
}

static TrB_Info enter_reduce(TrB_Vector w)
{
    return TrB_Matrix_reduce(&pass, w, TrB_NO_VECTOR, TrB_NO_ACCUM, TrB_PLUS, a, TrB_DEFAULT);
}

static TrB_Info enter_paths(TrB_Vector w)
{
    TrB_Info info = TrB_Vector_setElement_UINT64(&pass, w, 0, 0);
    for (int round = 0; info == TrB_SUCCESS && round < PATH_ROUNDS; round++) {
        info = TrB_vxm(&pass, w, TrB_NO_VECTOR, TrB_MIN, TrB_MIN_PLUS, w, a, TrB_DEFAULT);
    }
    return info;
}

static double our_build(Outcome *outcome) { return time_matrix(enter_build, outcome); }
static double our_mxm(Outcome *outcome) { return time_matrix(enter_mxm, outcome); }
static double our_triangles(Outcome *outcome) { return time_matrix(enter_triangles, outcome); }
static double our_add(Outcome *outcome) { return time_matrix(enter_add, outcome); }
static double our_mult(Outcome *outcome) { return time_matrix(enter_mult, outcome); }
static double our_transpose(Outcome *outcome) { return time_matrix(enter_transpose, outcome); }
static double our_apply(Outcome *outcome) { return time_matrix(enter_apply, outcome); }
static double our_select_below(Outcome *outcome) { return time_matrix(enter_select_below, outcome); }
static double our_select_heavy(Outcome *outcome) { return time_matrix(enter_select_heavy, outcome); }
static double our_mxv(Outcome *outcome) { return time_vector(enter_mxv, outcome); }
static double our_mxv_min(Outcome *outcome) { return time_vector(enter_mxv_min, outcome); }
static double our_vxm(Outcome *outcome) { return time_vector(enter_vxm, outcome); }
static double our_vxm_few(Outcome *outcome) { return time_vector(enter_vxm_few, outcome); }
static double our_vxm_one(Outcome *outcome) { return time_vector(enter_vxm_one, outcome); }
static double our_reduce(Outcome *outcome) { return time_vector(enter_reduce, outcome); }
static double our_paths(Outcome *outcome) { return time_vector(enter_paths, outcome); }

static double our_mxm_bool(Outcome *outcome)
{
    TrB_Matrix c;
    OK(TrB_Matrix_new(&pass, &c, TrB_BOOL, vertices, vertices));
    return time_in(c, enter_mxm_bool, see_truths, outcome);
}

/* The output stores the graph before. */
static double our_masked_add(Outcome *outcome)
{
    TrB_Matrix c;
    OK(TrB_Matrix_dup(&pass, &c, a));
    return time_in(c, enter_masked_add, see_matrix, outcome);
}

static double our_kronecker(Outcome *outcome)
{
    TrB_Matrix c;
    OK(TrB_Matrix_new(&pass, &c, TrB_UINT64, PAIR * vertices, PAIR * vertices));
    return time_in(c, enter_kronecker, see_matrix, outcome);
}

static double our_total(Outcome *outcome)
{
    double start = now();
    OK(TrB_Matrix_reduce_UINT64(&pass, &outcome->digest, TrB_PLUS, a));
    double seconds = now() - start;
    OK(TrB_Matrix_nvals(&pass, &outcome->nvals, a));
    return seconds;
}

/* A vector of truth values with vertex 0 alone. */
static TrB_Vector first_vertex(void)
{
    TrB_Vector w;
    OK(TrB_Vector_new(&pass, &w, TrB_BOOL, vertices));
    OK(TrB_Vector_setElement_BOOL(&pass, w, true, 0));
    OK(TrB_Vector_wait(&pass, w, TrB_MATERIALIZE));
    return w;
}

static TrB_Info push_front(TrB_Vector front, TrB_Vector seen)
{
    return TrB_vxm(&pass, front, seen, TrB_NO_ACCUM, TrB_LOR_LAND, front, t, TrB_STRUCTURE | TrB_COMP | TrB_REPLACE);
}

static TrB_Info pull_front(TrB_Vector front, TrB_Vector seen)
{
    return TrB_mxv(&pass, front, seen, TrB_NO_ACCUM, TrB_LOR_LAND, back, front, TrB_STRUCTURE | TrB_COMP | TrB_REPLACE);
}

/* From vertex 0, front by front. What was seen is the mask, so it is left out. */
static double search(TrB_Info (*next)(TrB_Vector front, TrB_Vector seen), Outcome *outcome)
{
    TrB_Vector front = first_vertex(), seen = first_vertex();
    uint64_t fronts = 0, count = 1;
    double start = now();
    for (uint64_t round = 1; count > 0; round++) {
        OK(next(front, seen));
        OK(TrB_Vector_eWiseAdd(&pass, seen, TrB_NO_VECTOR, TrB_NO_ACCUM, TrB_LOR, seen, front, TrB_DEFAULT));
        OK(TrB_Vector_nvals(&pass, &count, front));
        fronts += round * count;
    }
    OK(TrB_Vector_nvals(&pass, &outcome->nvals, seen));
    double seconds = now() - start;
    TrB_Index *found = (TrB_Index *)space(outcome->nvals, sizeof *found);
    bool *values = (bool *)space(outcome->nvals, sizeof *values);
    OK(TrB_Vector_extractTuples_BOOL(&pass, found, values, &outcome->nvals, seen));
    outcome->digest = fronts;
    for (uint64_t k = 0; k < outcome->nvals; k++) {
        outcome->digest += digest_of(found[k], 0, values[k]);
    }
    free(found);
    free(values);
    OK(TrB_Vector_free(&pass, front));
    OK(TrB_Vector_free(&pass, seen));
    return seconds;
}

static double our_search(Outcome *outcome) { return search(push_front, outcome); }
static double our_pull(Outcome *outcome) { return search(pull_front, outcome); }

static double our_entries(Outcome *outcome)
{
    Tuples found = room_for(graph.nvals, true);
    double start = now();
    OK(TrB_Matrix_extractTuples_UINT64(&pass, found.rows, found.columns, found.values, &found.nvals, a));
    double seconds = now() - start;
    HOLDS(are_edges(&found));
    *outcome = (Outcome){found.nvals, digest(&found)};
    free_tuples(&found);
    return seconds;
}

/* One turn is a set at a drawn place, and a get there. */
static double our_turns(Outcome *outcome)
{
    TrB_Matrix c = matrix_of(&graph);
    OK(TrB_Matrix_wait(&pass, c, TrB_MATERIALIZE));
    double start = now();
    for (uint64_t k = 0; k < TURNS; k++) {
        TrB_Index i = mix(2 * k) % vertices, j = mix(2 * k + 1) % vertices;
        uint64_t x;
        OK(TrB_Matrix_setElement_UINT64(&pass, c, k, i, j));
        OK(TrB_Matrix_extractElement_UINT64(&pass, &x, c, i, j));
        HOLDS(x == k);
    }
    double seconds = (now() - start) / TURNS;
    OK(TrB_Matrix_nvals(&pass, &outcome->nvals, c));
    see_matrix(c, outcome);
    OK(TrB_Matrix_free(&pass, c));
    return seconds;
}

/* ---- The service ------------------------------------------------------------------------------- */

/* Threads set edges of the graph and ask for others at the same time: after each set 7 gets, and now and
 * then how many entries there are. An edge has the same weight whoever sets it, so what is there in the
 * end does not depend on the schedule. The time is that of one turn, over all threads. */
static size_t threads;

TrB_Index asked(size_t thread, uint64_t turn, uint64_t query)
{
    return mix(((uint64_t)thread * TURNS + turn) * (2 * GETS + 2) + query) % vertices;
}

double run_threads(void *(*function)(void *number))
{
    pthread_t ids[MOST_THREADS];
    size_t numbers[MOST_THREADS];
    double start = now();
    for (size_t k = 0; k < threads; k++) {
        numbers[k] = k;
        HOLDS(pthread_create(&ids[k], NULL, function, &numbers[k]) == 0);
    }
    for (size_t k = 0; k < threads; k++) {
        HOLDS(pthread_join(ids[k], NULL) == 0);
    }
    return (now() - start) / (double)(threads * TURNS);
}

static TrB_Pass passes[MOST_THREADS] = {TRB_PASS_INIT};
static TrB_Matrix served;

/* Each thread has a pass of its own. One of them waits from time to time, which serves all. */
static void *serve(void *number)
{
    size_t thread = *(const size_t *)number;
    TrB_Pass *own = &passes[thread];
    for (uint64_t k = 0; k < TURNS; k++) {
        TrB_Index i = asked(thread, k, 0), j = asked(thread, k, 1);
        OK(TrB_Matrix_setElement_UINT64(own, served, weight_of(i, j), i, j));
        for (uint64_t q = 1; q <= GETS; q++) {
            uint64_t x;
            i = asked(thread, k, 2 * q);
            j = asked(thread, k, 2 * q + 1);
            TrB_Info info = TrB_Matrix_extractElement_UINT64(own, &x, served, i, j);
            HOLDS(info == TrB_NO_VALUE || (info == TrB_SUCCESS && x == weight_of(i, j)));
        }
        if (k % TURNS_FOR_COUNT == 0) {
            TrB_Index nvals;
            OK(TrB_Matrix_nvals(own, &nvals, served));
            HOLDS(nvals >= graph.nvals);
        }
        if (thread == 0 && k % TURNS_FOR_WAIT == 0) {
            OK(TrB_Matrix_wait(own, served, TrB_MATERIALIZE));
        }
    }
    return NULL;
}

static double our_service(Outcome *outcome)
{
    uint32_t evaluated;
    OK(TrB_open((uint32_t)(threads * TURNS) + 2, passes, threads));
    OK(TrB_Matrix_new(&passes[0], &served, TrB_UINT64, vertices, vertices));
    OK(TrB_Matrix_build_UINT64(&passes[0], served, graph.rows, graph.columns, graph.values, graph.nvals, TrB_PLUS));
    OK(TrB_prepare(&passes[0], &evaluated));
    for (size_t k = 1; k < threads; k++) {
        OK(TrB_adopt(&passes[k], &passes[0]));
    }
    double seconds = run_threads(serve);
    OK(TrB_Matrix_nvals(&passes[0], &outcome->nvals, served));
    Tuples found = room_for(outcome->nvals, true);
    OK(TrB_Matrix_extractTuples_UINT64(&passes[0], found.rows, found.columns, found.values, &found.nvals, served));
    outcome->digest = digest(&found);
    free_tuples(&found);
    for (size_t k = 0; k < threads; k++) {
        TrB_free(&passes[k]);
    }
    return seconds;
}

/* ---- The lines --------------------------------------------------------------------------------- */

/* What is timed: by us, by SuiteSparse where it is there, and by hand where one loop does it. */
typedef struct {
    const char *name;
    Round *ours, *theirs, *by_hand;
} Line;

static const Line lines[] = {
    {"build", our_build, BESIDE(their_build), hand_build},
    {"mxm plus.times", our_mxm, BESIDE(their_mxm), hand_mxm},
    {"mxm lor.land", our_mxm_bool, BESIDE(their_mxm_bool), hand_mxm_bool},
    {"mxm plus.times, theirs unsorted", our_mxm, BESIDE(their_mxm_unsorted), NULL},
    {"mxm lor.land, theirs unsorted", our_mxm_bool, BESIDE(their_mxm_bool_unsorted), NULL},
    {"mxm of triangles, masked", our_triangles, BESIDE(their_triangles), hand_triangles},
    {"mxv plus.times", our_mxv, BESIDE(their_mxv), hand_mxv},
    {"mxv min.plus", our_mxv_min, BESIDE(their_mxv_min), hand_mxv_min},
    {"vxm", our_vxm, BESIDE(their_vxm), hand_vxm},
    {"vxm of 64 vertices", our_vxm_few, BESIDE(their_vxm_few), hand_vxm_few},
    {"vxm of one vertex", our_vxm_one, BESIDE(their_vxm_one), hand_vxm_one},
    {"eWiseAdd", our_add, BESIDE(their_add), hand_add},
    {"eWiseMult", our_mult, BESIDE(their_mult), hand_mult},
    {"eWiseAdd, mask and accumulator", our_masked_add, BESIDE(their_masked_add), hand_masked_add},
    {"reduce rows", our_reduce, BESIDE(their_reduce), hand_reduce},
    {"total", our_total, BESIDE(their_total), hand_total},
    {"transpose", our_transpose, BESIDE(their_transpose), hand_transpose},
    {"apply", our_apply, BESIDE(their_apply), hand_apply},
    {"select by diagonal", our_select_below, BESIDE(their_select_below), hand_select_below},
    {"select by value", our_select_heavy, BESIDE(their_select_heavy), hand_select_heavy},
    {"kronecker with 2 x 2", our_kronecker, BESIDE(their_kronecker), NULL},
    {"breadth-first search", our_search, BESIDE(their_search), hand_search},
    {"the same by mxv", our_pull, BESIDE(their_pull), hand_search},
    {"20 rounds of shortest paths", our_paths, BESIDE(their_paths), hand_paths},
    {"all entries", our_entries, BESIDE(their_entries), NULL},
    {"set and get, a turn", our_turns, BESIDE(their_turns), NULL},
    {"service, a turn", our_service, BESIDE(their_service), NULL},
};

typedef struct {
    const char *name;
    uint64_t (*edge)(uint64_t k);
} Kind;

static const Kind kinds[] = {{"R-MAT", rmat_edge}, {"random", random_edge}, {"grid", grid_edge}};

/* ---- Memory ------------------------------------------------------------------------------------ */

#ifdef __linux__

/* A number of kilobytes that the system tells of this process; 0 where it does not. */
static uint64_t told(const char *format)
{
    char line[128];
    uint64_t kilobytes = 0;
    FILE *status = fopen("/proc/self/status", "r");
    while (status != NULL && fgets(line, sizeof line, status) != NULL && sscanf(line, format, &kilobytes) != 1) {
    }
    if (status != NULL) {
        fclose(status);
    }
    return kilobytes;
}

/* Lets the most that this process ever held be what it holds now. Whether the system takes that. */
static bool forget_most(void)
{
    FILE *refs = fopen("/proc/self/clear_refs", "w");
    if (refs == NULL) {
        return false;
    }
    bool is_written = fputs("5", refs) >= 0;
    return fclose(refs) == 0 && is_written;
}

/* The most memory that a round takes, in kilobytes; 0 where the system does not tell it. The round runs in a copy of
 * this process, so that nothing is left from rounds before. */
static uint64_t memory_of(Round *side)
{
    int ends[2];
    uint64_t kilobytes = 0;
    HOLDS(pipe(ends) == 0);
    fflush(NULL);
    malloc_trim(0);
    pid_t copy = fork();
    HOLDS(copy >= 0);
    if (copy == 0) {
        Outcome outcome = {0, 0};
        reads_all = false;
        bool is_told = forget_most();
        uint64_t before = told("VmRSS: %" SCNu64);
        side(&outcome);
        uint64_t most = told("VmHWM: %" SCNu64);
        kilobytes = is_told && most > before ? most - before : 0;
        HOLDS(write(ends[1], &kilobytes, sizeof kilobytes) == sizeof kilobytes);
        _exit(EXIT_SUCCESS);
    }
    int status;
    HOLDS(waitpid(copy, &status, 0) == copy && status == 0);
    HOLDS(read(ends[0], &kilobytes, sizeof kilobytes) == sizeof kilobytes);
    close(ends[0]);
    close(ends[1]);
    return kilobytes;
}

/* Tells the memory of all sides, and ours divided by each other's. */
static void weigh_line(const Line *line)
{
    Round *sides[3] = {line->ours, line->theirs, line->by_hand};
    uint64_t ours = memory_of(sides[0]);
    fprintf(stderr, "%-32s %13" PRIu64, line->name, ours);
    for (int side = 1; side < 3; side++) {
        uint64_t other = sides[side] == NULL ? 0 : memory_of(sides[side]);
        if (ours == 0 || other == 0) {
            fprintf(stderr, " %13s %7s", "-", "-");
        } else {
            fprintf(stderr, " %13" PRIu64 " %7.2f", other, (double)ours / (double)other);
        }
    }
    fprintf(stderr, "\n");
}

static void weigh(void)
{
    fprintf(stderr, "%-32s %13s %13s %7s %13s %7s\n", "kilobytes", "ours", "theirs", "ratio", "by hand", "ratio");
    for (size_t k = 0; k < sizeof lines / sizeof lines[0]; k++) {
        weigh_line(&lines[k]);
    }
}

#else

static void weigh(void) {}

#endif

/* ---- Times ------------------------------------------------------------------------------------- */

/* Tells the time of another side, and ours divided by it. */
static void tell(double ours, double other, bool is_there)
{
    if (is_there) {
        fprintf(stderr, " %13.9f %7.2f", other, ours / other);
    } else {
        fprintf(stderr, " %13s %7s", "-", "-");
    }
}

/* Times all sides in turn. Each round of each side leaves the same. */
static void time_line(const char *kind, const Line *line)
{
    Round *sides[3] = {line->ours, line->theirs, line->by_hand};
    double least[3] = {0, 0, 0};
    Outcome first = {0, 0};
    for (int k = 0; k < ROUNDS; k++) {
        for (int side = 0; side < 3; side++) {
            if (sides[side] != NULL) {
                Outcome outcome;
                double seconds = sides[side](&outcome);
                first = k == 0 && side == 0 ? outcome : first;
                HOLDS(outcome.nvals == first.nvals && outcome.digest == first.digest);
                least[side] = k == 0 || seconds < least[side] ? seconds : least[side];
            }
        }
    }
    fprintf(stderr, "%-32s %13.9f", line->name, least[0]);
    tell(least[0], least[1], sides[1] != NULL);
    tell(least[0], least[2], sides[2] != NULL);
    fprintf(stderr, "\n");
    printf("%s, %s: right\n", kind, line->name);
    fflush(stdout);
}

/* Lays the graph out for all but the store, and forgets it. */
static void load_others(void)
{
    load_by_hand();
#ifdef TRB_SUITESPARSE
    load_theirs();
#endif
}

static void unload_others(void)
{
    unload_by_hand();
#ifdef TRB_SUITESPARSE
    unload_theirs();
#endif
    forget();
}

static void time_kind(const Kind *kind)
{
    draw(kind->edge, (uint64_t)8 << scale);
    load();
    load_others();
    fprintf(stderr, "%s: %" PRIu64 " vertices, %" PRIu64 " edges; %zu threads in the service\n", kind->name, vertices,
            graph.nvals, threads);
    weigh();
    fprintf(stderr, "%-32s %13s %13s %7s %13s %7s\n", "seconds", "ours", "theirs", "ratio", "by hand", "ratio");
    for (size_t k = 0; k < sizeof lines / sizeof lines[0]; k++) {
        time_line(kind->name, &lines[k]);
    }
    TrB_free(&pass);
    unload_others();
}

/* Times products by blocks, on a graph of its own. */
static void time_together(void)
{
    scale = scale + 2 < BLOCKS_SCALE ? scale + 2 : BLOCKS_SCALE;
    draw(rmat_edge, ((uint64_t)61 << scale) / 2);
    load_others();
    time_blocks();
    unload_others();
}

/* A number of the command line, or this one where it is not given. */
static int argument(int argc, char **argv, int place, int missing, int smallest, int largest)
{
    int number = argc > place ? atoi(argv[place]) : missing;
    if (number < smallest || number > largest) {
        fprintf(stderr, "usage: bench [SCALE [THREADS [blocks]]], a scale from 4 to 20 and 1 to %d threads\n",
                MOST_THREADS);
        exit(EXIT_FAILURE);
    }
    return number;
}

int main(int argc, char **argv)
{
    scale = (uint64_t)argument(argc, argv, 1, 12, 4, 20);
    threads = (size_t)argument(argc, argv, 2, 4, 1, MOST_THREADS);
    bool are_blocks_alone = argc > 3 && strcmp(argv[3], "blocks") == 0;
#ifdef TRB_SUITESPARSE
    begin_theirs();
#endif
    for (size_t k = 0; k < sizeof kinds / sizeof kinds[0] && !are_blocks_alone; k++) {
        time_kind(&kinds[k]);
    }
    time_together();
#ifdef TRB_SUITESPARSE
    end_theirs();
#endif
    return EXIT_SUCCESS;
}

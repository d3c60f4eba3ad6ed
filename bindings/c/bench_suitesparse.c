/* The same by SuiteSparse:GraphBLAS, which is held to one thread for each call but where four are told. Without TRB_SUITESPARSE nothing
 * stands here. */
#ifdef TRB_SUITESPARSE

#define _POSIX_C_SOURCE 200809L

#include "bench.h"

#include <GraphBLAS.h>
#include <pthread.h>
#include <stdlib.h>

/* The call is made. */
#define DONE(call) check_statement((call) == GrB_SUCCESS, #call, __FILE__, __LINE__)

/* The graph, with its edges turned round, below the diagonal, of truth values, those turned round, the small matrix, and
 * the vectors. */
static GrB_Matrix a, b, l, t, back, two;
static GrB_Vector u, some, single;

static GrB_Matrix square_of(const Tuples *tuples, uint64_t side)
{
    GrB_Matrix c;
    DONE(GrB_Matrix_new(&c, GrB_UINT64, side, side));
    DONE(GrB_Matrix_build_UINT64(c, tuples->rows, tuples->columns, tuples->values, tuples->nvals, GrB_PLUS_UINT64));
    DONE(GrB_Matrix_wait(c, GrB_MATERIALIZE));
    return c;
}

static GrB_Matrix matrix_of(const Tuples *tuples)
{
    return square_of(tuples, vertices);
}

static GrB_Matrix truths_at(const Tuples *tuples)
{
    GrB_Matrix c;
    DONE(GrB_Matrix_new(&c, GrB_BOOL, vertices, vertices));
    DONE(GrB_Matrix_build_BOOL(c, tuples->rows, tuples->columns, truths, tuples->nvals, GrB_LOR));
    DONE(GrB_Matrix_wait(c, GrB_MATERIALIZE));
    return c;
}

static GrB_Vector vector_of(const Tuples *tuples)
{
    GrB_Vector w;
    DONE(GrB_Vector_new(&w, GrB_UINT64, vertices));
    DONE(GrB_Vector_build_UINT64(w, tuples->rows, tuples->values, tuples->nvals, GrB_PLUS_UINT64));
    DONE(GrB_Vector_wait(w, GrB_MATERIALIZE));
    return w;
}

void begin_theirs(void)
{
    DONE(GrB_init(GrB_NONBLOCKING));
    DONE(GxB_Global_Option_set(GxB_GLOBAL_NTHREADS, 1));
}

void end_theirs(void)
{
    DONE(GrB_finalize());
}

void load_theirs(void)
{
    a = matrix_of(&graph);
    b = matrix_of(&turned);
    l = matrix_of(&below);
    t = truths_at(&graph);
    back = truths_at(&turned);
    two = square_of(&pair, PAIR);
    u = vector_of(&full);
    some = vector_of(&few);
    single = vector_of(&one);
}

void unload_theirs(void)
{
    DONE(GrB_Matrix_free(&a));
    DONE(GrB_Matrix_free(&b));
    DONE(GrB_Matrix_free(&l));
    DONE(GrB_Matrix_free(&t));
    DONE(GrB_Matrix_free(&back));
    DONE(GrB_Matrix_free(&two));
    DONE(GrB_Vector_free(&u));
    DONE(GrB_Vector_free(&some));
    DONE(GrB_Vector_free(&single));
}

/* ---- What is made ------------------------------------------------------------------------------ */

/* Reads all entries; truth values are read as 0 and 1. */
static void see_matrix(GrB_Matrix c, Outcome *outcome)
{
    if (!reads_all) {
        return;
    }
    Tuples found = room_for(outcome->nvals, true);
    DONE(GrB_Matrix_extractTuples_UINT64(found.rows, found.columns, found.values, &found.nvals, c));
    HOLDS(found.nvals == outcome->nvals);
    outcome->digest = digest(&found);
    free_tuples(&found);
}

static void see_vector(GrB_Vector w, Outcome *outcome)
{
    if (!reads_all) {
        return;
    }
    Tuples found = room_for(outcome->nvals, false);
    DONE(GrB_Vector_extractTuples_UINT64(found.rows, found.values, &found.nvals, w));
    HOLDS(found.nvals == outcome->nvals);
    outcome->digest = digest(&found);
    free_tuples(&found);
}

/* Times a call that writes this matrix, and frees the matrix. All of its work is done then, or rows may be left out
 * of order, as a product leaves them until they are asked for. */
static double time_in(GrB_Matrix c, GrB_Info (*make)(GrB_Matrix c), bool is_sorted, Outcome *outcome)
{
    double start = now();
    DONE(make(c));
    if (is_sorted) {
        DONE(GrB_Matrix_wait(c, GrB_MATERIALIZE));
    }
    DONE(GrB_Matrix_nvals(&outcome->nvals, c));
    double seconds = now() - start;
    see_matrix(c, outcome);
    DONE(GrB_Matrix_free(&c));
    return seconds;
}

static double time_unsorted(GrB_Info (*make)(GrB_Matrix c), GrB_Type type, Outcome *outcome)
{
    GrB_Matrix c;
    DONE(GrB_Matrix_new(&c, type, vertices, vertices));
    return time_in(c, make, false, outcome);
}

static double time_matrix(GrB_Info (*make)(GrB_Matrix c), GrB_Type type, Outcome *outcome)
{
    GrB_Matrix c;
    DONE(GrB_Matrix_new(&c, type, vertices, vertices));
    return time_in(c, make, true, outcome);
}

/* Times a call that writes a new vector, with all of its work. */
static double time_vector(GrB_Info (*make)(GrB_Vector w), Outcome *outcome)
{
    GrB_Vector w;
    DONE(GrB_Vector_new(&w, GrB_UINT64, vertices));
    double start = now();
    DONE(make(w));
    DONE(GrB_Vector_wait(w, GrB_MATERIALIZE));
    DONE(GrB_Vector_nvals(&outcome->nvals, w));
    double seconds = now() - start;
    see_vector(w, outcome);
    DONE(GrB_Vector_free(&w));
    return seconds;
}

/* ---- The operations ---------------------------------------------------------------------------- */

static GrB_Info make_build(GrB_Matrix c)
{
    return GrB_Matrix_build_UINT64(c, graph.rows, graph.columns, graph.values, graph.nvals, GrB_PLUS_UINT64);
}

static GrB_Info make_mxm(GrB_Matrix c)
{
    return GrB_mxm(c, NULL, NULL, GrB_PLUS_TIMES_SEMIRING_UINT64, a, a, NULL);
}

static GrB_Info make_mxm_bool(GrB_Matrix c)
{
    return GrB_mxm(c, NULL, NULL, GrB_LOR_LAND_SEMIRING_BOOL, t, t, NULL);
}

static GrB_Info make_triangles(GrB_Matrix c)
{
    return GrB_mxm(c, l, NULL, GrB_PLUS_TIMES_SEMIRING_UINT64, l, l, GrB_DESC_S);
}

static GrB_Info make_add(GrB_Matrix c)
{
    return GrB_Matrix_eWiseAdd_BinaryOp(c, NULL, NULL, GrB_PLUS_UINT64, a, b, NULL);
}

static GrB_Info make_mult(GrB_Matrix c)
{
    return GrB_Matrix_eWiseMult_BinaryOp(c, NULL, NULL, GrB_TIMES_UINT64, a, b, NULL);
}

static GrB_Info make_masked_add(GrB_Matrix c)
{
    return GrB_Matrix_eWiseAdd_BinaryOp(c, l, GrB_PLUS_UINT64, GrB_PLUS_UINT64, a, b, GrB_DESC_S);
}

static GrB_Info make_transpose(GrB_Matrix c)
{
    return GrB_transpose(c, NULL, NULL, a, NULL);
}

static GrB_Info make_apply(GrB_Matrix c)
{
    return GrB_Matrix_apply(c, NULL, NULL, GrB_AINV_UINT64, a, NULL);
}

static GrB_Info make_select_below(GrB_Matrix c)
{
    return GrB_Matrix_select_INT64(c, NULL, NULL, GrB_TRIL, a, -1, NULL);
}

static GrB_Info make_select_heavy(GrB_Matrix c)
{
    return GrB_Matrix_select_UINT64(c, NULL, NULL, GrB_VALUEGT_UINT64, a, LIGHT, NULL);
}

static GrB_Info make_kronecker(GrB_Matrix c)
{
    return GrB_Matrix_kronecker_BinaryOp(c, NULL, NULL, GrB_TIMES_UINT64, a, two, NULL);
}

static GrB_Info make_mxv(GrB_Vector w)
{
    return GrB_mxv(w, NULL, NULL, GrB_PLUS_TIMES_SEMIRING_UINT64, a, u, NULL);
}

static GrB_Info make_mxv_min(GrB_Vector w)
{
    return GrB_mxv(w, NULL, NULL, GrB_MIN_PLUS_SEMIRING_UINT64, a, u, NULL);
}

static GrB_Info make_vxm(GrB_Vector w)
{
    return GrB_vxm(w, NULL, NULL, GrB_PLUS_TIMES_SEMIRING_UINT64, u, a, NULL);
}

static GrB_Info make_vxm_few(GrB_Vector w)
{
    return GrB_vxm(w, NULL, NULL, GrB_PLUS_TIMES_SEMIRING_UINT64, some, a, NULL);
}

static GrB_Info make_vxm_one(GrB_Vector w)
{
    return GrB_vxm(w, NULL, NULL, GrB_PLUS_TIMES_SEMIRING_UINT64, single, a, NULL);
}

static GrB_Info make_reduce(GrB_Vector w)
{
    return GrB_Matrix_reduce_Monoid(w, NULL, NULL, GrB_PLUS_MONOID_UINT64, a, NULL);
}

static GrB_Info make_paths(GrB_Vector w)
{
    GrB_Info info = GrB_Vector_setElement_UINT64(w, 0, 0);
    for (int round = 0; info == GrB_SUCCESS && round < PATH_ROUNDS; round++) {
        info = GrB_vxm(w, NULL, GrB_MIN_UINT64, GrB_MIN_PLUS_SEMIRING_UINT64, w, a, NULL);
    }
    return info;
}

double their_build(Outcome *outcome) { return time_matrix(make_build, GrB_UINT64, outcome); }
double their_mxm(Outcome *outcome) { return time_matrix(make_mxm, GrB_UINT64, outcome); }
double their_mxm_bool(Outcome *outcome) { return time_matrix(make_mxm_bool, GrB_BOOL, outcome); }
double their_mxm_unsorted(Outcome *outcome) { return time_unsorted(make_mxm, GrB_UINT64, outcome); }
double their_mxm_bool_unsorted(Outcome *outcome) { return time_unsorted(make_mxm_bool, GrB_BOOL, outcome); }
double their_triangles(Outcome *outcome) { return time_matrix(make_triangles, GrB_UINT64, outcome); }
double their_add(Outcome *outcome) { return time_matrix(make_add, GrB_UINT64, outcome); }
double their_mult(Outcome *outcome) { return time_matrix(make_mult, GrB_UINT64, outcome); }
double their_transpose(Outcome *outcome) { return time_matrix(make_transpose, GrB_UINT64, outcome); }
double their_apply(Outcome *outcome) { return time_matrix(make_apply, GrB_UINT64, outcome); }
double their_select_below(Outcome *outcome) { return time_matrix(make_select_below, GrB_UINT64, outcome); }
double their_select_heavy(Outcome *outcome) { return time_matrix(make_select_heavy, GrB_UINT64, outcome); }
double their_mxv(Outcome *outcome) { return time_vector(make_mxv, outcome); }
double their_mxv_min(Outcome *outcome) { return time_vector(make_mxv_min, outcome); }
double their_vxm(Outcome *outcome) { return time_vector(make_vxm, outcome); }
double their_vxm_few(Outcome *outcome) { return time_vector(make_vxm_few, outcome); }
double their_vxm_one(Outcome *outcome) { return time_vector(make_vxm_one, outcome); }
double their_reduce(Outcome *outcome) { return time_vector(make_reduce, outcome); }
double their_paths(Outcome *outcome) { return time_vector(make_paths, outcome); }

/* Makes a round with four threads for each call. */
static double by_four(Round *round, Outcome *outcome)
{
    DONE(GxB_Global_Option_set(GxB_GLOBAL_NTHREADS, 4));
    double seconds = round(outcome);
    DONE(GxB_Global_Option_set(GxB_GLOBAL_NTHREADS, 1));
    return seconds;
}

double their_mxm_four(Outcome *outcome) { return by_four(their_mxm, outcome); }
double their_triangles_four(Outcome *outcome) { return by_four(their_triangles, outcome); }

double their_masked_add(Outcome *outcome)
{
    GrB_Matrix c;
    DONE(GrB_Matrix_dup(&c, a));
    DONE(GrB_Matrix_wait(c, GrB_MATERIALIZE));
    return time_in(c, make_masked_add, true, outcome);
}

double their_kronecker(Outcome *outcome)
{
    GrB_Matrix c;
    DONE(GrB_Matrix_new(&c, GrB_UINT64, PAIR * vertices, PAIR * vertices));
    return time_in(c, make_kronecker, true, outcome);
}

double their_total(Outcome *outcome)
{
    double start = now();
    DONE(GrB_Matrix_reduce_UINT64(&outcome->digest, NULL, GrB_PLUS_MONOID_UINT64, a, NULL));
    double seconds = now() - start;
    DONE(GrB_Matrix_nvals(&outcome->nvals, a));
    return seconds;
}

/* A vector of truth values with vertex 0 alone. */
static GrB_Vector first_vertex(void)
{
    GrB_Vector w;
    DONE(GrB_Vector_new(&w, GrB_BOOL, vertices));
    DONE(GrB_Vector_setElement_BOOL(w, true, 0));
    DONE(GrB_Vector_wait(w, GrB_MATERIALIZE));
    return w;
}

static GrB_Info push_front(GrB_Vector front, GrB_Vector seen)
{
    return GrB_vxm(front, seen, NULL, GrB_LOR_LAND_SEMIRING_BOOL, front, t, GrB_DESC_RSC);
}

static GrB_Info pull_front(GrB_Vector front, GrB_Vector seen)
{
    return GrB_mxv(front, seen, NULL, GrB_LOR_LAND_SEMIRING_BOOL, back, front, GrB_DESC_RSC);
}

static double search(GrB_Info (*next)(GrB_Vector front, GrB_Vector seen), Outcome *outcome)
{
    GrB_Vector front = first_vertex(), seen = first_vertex();
    uint64_t fronts = 0, count = 1;
    double start = now();
    for (uint64_t round = 1; count > 0; round++) {
        DONE(next(front, seen));
        DONE(GrB_Vector_eWiseAdd_BinaryOp(seen, NULL, NULL, GrB_LOR, seen, front, NULL));
        DONE(GrB_Vector_nvals(&count, front));
        fronts += round * count;
    }
    DONE(GrB_Vector_nvals(&outcome->nvals, seen));
    double seconds = now() - start;
    see_vector(seen, outcome);
    outcome->digest += fronts;
    DONE(GrB_Vector_free(&front));
    DONE(GrB_Vector_free(&seen));
    return seconds;
}

double their_search(Outcome *outcome) { return search(push_front, outcome); }
double their_pull(Outcome *outcome) { return search(pull_front, outcome); }

/* ---- Reads and sets ---------------------------------------------------------------------------- */

double their_entries(Outcome *outcome)
{
    Tuples found = room_for(graph.nvals, true);
    double start = now();
    DONE(GrB_Matrix_extractTuples_UINT64(found.rows, found.columns, found.values, &found.nvals, a));
    double seconds = now() - start;
    HOLDS(are_edges(&found));
    *outcome = (Outcome){found.nvals, digest(&found)};
    free_tuples(&found);
    return seconds;
}

double their_turns(Outcome *outcome)
{
    GrB_Matrix c;
    DONE(GrB_Matrix_dup(&c, a));
    DONE(GrB_Matrix_wait(c, GrB_MATERIALIZE));
    double start = now();
    for (uint64_t k = 0; k < TURNS; k++) {
        GrB_Index i = mix(2 * k) % vertices, j = mix(2 * k + 1) % vertices;
        uint64_t x;
        DONE(GrB_Matrix_setElement_UINT64(c, k, i, j));
        DONE(GrB_Matrix_extractElement_UINT64(&x, c, i, j));
        HOLDS(x == k);
    }
    double seconds = (now() - start) / TURNS;
    DONE(GrB_Matrix_nvals(&outcome->nvals, c));
    see_matrix(c, outcome);
    DONE(GrB_Matrix_free(&c));
    return seconds;
}

static GrB_Matrix served;
static pthread_mutex_t lock = PTHREAD_MUTEX_INITIALIZER;

/* All threads share one matrix. One call at a time has it. */
static void *serve(void *number)
{
    size_t thread = *(const size_t *)number;
    for (uint64_t k = 0; k < TURNS; k++) {
        GrB_Index i = asked(thread, k, 0), j = asked(thread, k, 1);
        pthread_mutex_lock(&lock);
        DONE(GrB_Matrix_setElement_UINT64(served, weight_of(i, j), i, j));
        pthread_mutex_unlock(&lock);
        for (uint64_t q = 1; q <= GETS; q++) {
            uint64_t x;
            i = asked(thread, k, 2 * q);
            j = asked(thread, k, 2 * q + 1);
            pthread_mutex_lock(&lock);
            GrB_Info info = GrB_Matrix_extractElement_UINT64(&x, served, i, j);
            pthread_mutex_unlock(&lock);
            HOLDS(info == GrB_NO_VALUE || (info == GrB_SUCCESS && x == weight_of(i, j)));
        }
        if (k % TURNS_FOR_COUNT == 0) {
            GrB_Index nvals;
            pthread_mutex_lock(&lock);
            DONE(GrB_Matrix_nvals(&nvals, served));
            pthread_mutex_unlock(&lock);
            HOLDS(nvals >= graph.nvals);
        }
    }
    return NULL;
}

double their_service(Outcome *outcome)
{
    DONE(GrB_Matrix_dup(&served, a));
    DONE(GrB_Matrix_wait(served, GrB_MATERIALIZE));
    double seconds = run_threads(serve);
    DONE(GrB_Matrix_nvals(&outcome->nvals, served));
    see_matrix(served, outcome);
    DONE(GrB_Matrix_free(&served));
    return seconds;
}

#endif

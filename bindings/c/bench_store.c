/* Times the store next to a mutex, and next to another case of the same: sets until the order is full, by threads that
 * each have a pass and by threads in turn under one mutex; first reads, a dup, openings, and calls near the end of the
 * longest histories; products of threads, and reads of what one of them left. beside.c times what results, waits and
 * meetings cost.
 *
 *     bench_store [RUNS]
 *
 * Each pair of cases runs RUNS times (3), both in turn. Times go to standard error: the least of a step, in nanoseconds,
 * and the first divided by the second. Standard output has one line for each pair of which both left what they should
 * in each run.
 *
 *     cc -std=c11 -O2 -o bench_store bench_store.c libgrb_c.a liblibc_c.a -lpthread
 */
#define _POSIX_C_SOURCE 200809L

#include "check.h"
#include "trowelheath.h"

#include <inttypes.h>
#include <pthread.h>
#include <stdio.h>
#include <stdlib.h>
#include <time.h>

enum {
    ROOM = 4096,        /* calls of a store that threads fill */
    SETS = ROOM - 1,    /* sets in it; its vector takes the rest */
    MOST_THREADS = 255,
    MOST_ROOM = 65536,
    MOST_PASSES = 256,
    MOST_SEATS = 1048576, /* room times passes */
    PLACES = 100000,    /* of a vector, where sets are scattered */
    SOME = 4000,        /* sets that a read has to do with, or nothing */
    MANY = 65000,       /* the same of a long history */
    TIMED = 500,        /* sets behind others */
    SIDE = 1000,        /* rows and columns of the matrices that threads work on */
    MOST_WORKERS = 63
};

/* The size of a vector. */
static const TrB_Index SIZE = UINT32_MAX;

/* One round of a case. It answers the seconds of the part that is timed. */
typedef double Round(uint64_t number);

static double now(void)
{
    struct timespec t;
    clock_gettime(CLOCK_MONOTONIC, &t);
    return (double)t.tv_sec + 1e-9 * (double)t.tv_nsec;
}

static uint32_t known(TrB_Pass *pass)
{
    TrB_Facts facts;
    OK(TrB_facts(pass, &facts));
    return facts.known;
}

/* ---- Entering ---------------------------------------------------------------------------------- */

/* What is filled: a store by passes of their own, or a store or a list by all threads under one mutex. */
enum way { PASSES, STORE, LIST };

typedef struct {
    TrB_Index i;
    uint64_t x;
} Entry;

/* One thread of a round. */
typedef struct {
    TrB_Pass *pass;
    uint64_t entered;
    double began, ended;
} Share;

static enum way way;
static TrB_Vector filled;
static Entry list[SETS];
static uint64_t listed;
static pthread_mutex_t lock = PTHREAD_MUTEX_INITIALIZER;
static pthread_barrier_t all_there;

static TrB_Info push(TrB_Index i)
{
    if (listed == SETS) {
        return TrB_ORDER_FULL;
    }
    list[listed++] = (Entry){i, i};
    return TrB_SUCCESS;
}

/* Enters the set of an index by this pass, or pushes it to the list. */
static TrB_Info enter(TrB_Pass *pass, TrB_Index i)
{
    if (way == PASSES) {
        return TrB_Vector_setElement_UINT64(pass, filled, i, i);
    }
    pthread_mutex_lock(&lock);
    TrB_Info info = way == STORE ? TrB_Vector_setElement_UINT64(pass, filled, i, i) : push(i);
    pthread_mutex_unlock(&lock);
    return info;
}

/* Enters one set after another until there is no room. */
static void *fill(void *argument)
{
    Share *share = (Share *)argument;
    TrB_Info info = TrB_SUCCESS;
    pthread_barrier_wait(&all_there);
    share->began = now();
    for (TrB_Index i = 0; i < SETS && info == TrB_SUCCESS; i++) {
        info = enter(share->pass, i);
        share->entered += info == TrB_SUCCESS;
    }
    share->ended = now();
    HOLDS(info == TrB_ORDER_FULL || share->entered == SETS);
    return NULL;
}

/* From where the first of so many threads begins to where the last ends. Each has a pass of its own and one more makes
 * the vector, or one pass is there for all. */
static double by_threads(uint64_t threads)
{
    TrB_Pass passes[MOST_THREADS + 1] = {TRB_PASS_INIT};
    static Share shares[MOST_THREADS];
    pthread_t started[MOST_THREADS];
    uint64_t npasses = way == PASSES ? threads + 1 : 1, entered = 0;
    double began = 1e18, ended = 0;
    OK(TrB_open(ROOM, passes, npasses));
    OK(TrB_Vector_new(&passes[npasses - 1], &filled, TrB_UINT64, SIZE));
    listed = 0;
    HOLDS(pthread_barrier_init(&all_there, NULL, (unsigned)threads) == 0);
    for (uint64_t t = 0; t < threads; t++) {
        shares[t] = (Share){&passes[way == PASSES ? t : 0], 0, 0, 0};
        HOLDS(pthread_create(&started[t], NULL, fill, &shares[t]) == 0);
    }
    for (uint64_t t = 0; t < threads; t++) {
        HOLDS(pthread_join(started[t], NULL) == 0);
        entered += shares[t].entered;
        began = shares[t].began < began ? shares[t].began : began;
        ended = shares[t].ended > ended ? shares[t].ended : ended;
    }
    HOLDS(entered == SETS);
    if (way != LIST) {
        TrB_Index size;
        OK(TrB_Vector_size(&passes[npasses - 1], &size, filled));
        HOLDS(known(&passes[npasses - 1]) == ROOM);
    }
    HOLDS(pthread_barrier_destroy(&all_there) == 0);
    for (uint64_t k = 0; k < npasses; k++) {
        TrB_free(&passes[k]);
    }
    return ended - began;
}

static double by_passes(uint64_t threads)
{
    way = PASSES;
    return by_threads(threads);
}

static double store_under_mutex(uint64_t threads)
{
    way = STORE;
    return by_threads(threads);
}

static double list_under_mutex(uint64_t threads)
{
    way = LIST;
    return by_threads(threads);
}

/* ---- What passes do ---------------------------------------------------------------------------- */

/* The place of the k-th set of a vector. */
static TrB_Index place(uint64_t k)
{
    return (k * 0x9E3779B97F4A7C15u >> 32) % PLACES;
}

static void set_many(TrB_Pass *pass, TrB_Vector v, uint64_t sets)
{
    for (uint64_t k = 0; k < sets; k++) {
        OK(TrB_Vector_setElement_UINT64(pass, v, place(k), place(k)));
    }
}

/* Makes a vector with so many sets. */
static TrB_Vector vector_of(TrB_Pass *pass, uint64_t sets)
{
    TrB_Vector v;
    OK(TrB_Vector_new(pass, &v, TrB_UINT64, SIZE));
    set_many(pass, v, sets);
    return v;
}

/* Reads what the last of so many sets left. */
static void see(TrB_Pass *pass, TrB_Vector v, uint64_t sets)
{
    uint64_t found;
    OK(TrB_Vector_extractElement_UINT64(pass, &found, v, place(sets - 1)));
    HOLDS(found == place(sets - 1));
}

static void open_two(TrB_Pass *passes)
{
    OK(TrB_open(MOST_ROOM, passes, 2));
}

static void free_two(TrB_Pass *passes)
{
    TrB_free(&passes[0]);
    TrB_free(&passes[1]);
}

/* The first read of a vector with 16 sets, behind so many of another. */
static double read_behind(uint64_t others)
{
    TrB_Pass passes[2] = {TRB_PASS_INIT};
    open_two(passes);
    TrB_Vector v = vector_of(&passes[0], 16);
    vector_of(&passes[0], others);
    double start = now();
    see(&passes[0], v, 16);
    double seconds = now() - start;
    free_two(passes);
    return seconds;
}

/* The first read of a pass, after another has set entries, and has waited for all objects, or has not. */
static double first_read(uint64_t waits)
{
    TrB_Pass passes[2] = {TRB_PASS_INIT};
    TrB_Facts facts;
    open_two(passes);
    TrB_Vector v = vector_of(&passes[1], SOME);
    if (waits) {
        OK(TrB_Vector_wait(&passes[1], v, TrB_MATERIALIZE));
    }
    double start = now();
    see(&passes[0], v, SOME);
    double seconds = now() - start;
    OK(TrB_facts(&passes[0], &facts));
    HOLDS(waits ? facts.made == 0 : facts.made == SOME + 1);
    free_two(passes);
    return seconds;
}

/* A pass comes to know the calls of another: by a meeting, or by a call of its own. */
static double learn(uint64_t meets)
{
    TrB_Pass passes[2] = {TRB_PASS_INIT};
    TrB_Index size;
    open_two(passes);
    TrB_Vector v = vector_of(&passes[1], MANY - 1);
    double start = now();
    if (meets) {
        OK(TrB_meet(&passes[0], &passes[1]));
    } else {
        OK(TrB_Vector_size(&passes[0], &size, v));
    }
    double seconds = now() - start;
    HOLDS(known(&passes[0]) == MANY);
    free_two(passes);
    return seconds;
}

/* A dup of a vector after so many sets, which are counted and so evaluated, and a read of the copy. */
static double dup_after(uint64_t sets)
{
    TrB_Pass passes[2] = {TRB_PASS_INIT};
    TrB_Vector copy;
    TrB_Index nvals;
    open_two(passes);
    TrB_Vector v = vector_of(&passes[0], sets);
    OK(TrB_Vector_nvals(&passes[0], &nvals, v));
    double start = now();
    OK(TrB_Vector_dup(&passes[0], &copy, v));
    see(&passes[0], copy, sets);
    double seconds = now() - start;
    free_two(passes);
    return seconds;
}

/* Sets behind so many others. */
static double set_behind(uint64_t others)
{
    TrB_Pass passes[2] = {TRB_PASS_INIT};
    open_two(passes);
    TrB_Vector v = vector_of(&passes[0], others);
    double start = now();
    set_many(&passes[0], v, TIMED);
    double seconds = now() - start;
    HOLDS(known(&passes[0]) == others + TIMED + 1);
    free_two(passes);
    return seconds;
}

/* An opening of so many passes, with the most room that they leave. */
static double opening(uint64_t npasses)
{
    TrB_Pass passes[MOST_PASSES] = {TRB_PASS_INIT};
    double start = now();
    OK(TrB_open((uint32_t)(MOST_SEATS / npasses), passes, npasses));
    double seconds = now() - start;
    for (uint64_t k = 0; k < npasses; k++) {
        HOLDS(passes[k].is_open);
        TrB_free(&passes[k]);
    }
    return seconds;
}

/* Sets until the order is full, in so many stores that have 65,536 calls together. */
static double fill_all(uint64_t stores)
{
    uint64_t room = MOST_ROOM / stores;
    double seconds = 0;
    for (uint64_t k = 0; k < stores; k++) {
        TrB_Pass pass = TRB_PASS_INIT;
        TrB_Vector v;
        TrB_Index nvals;
        double start = now();
        OK(TrB_open((uint32_t)room, &pass, 1));
        OK(TrB_Vector_new(&pass, &v, TrB_UINT64, room));
        for (TrB_Index i = 0; i + 1 < room; i++) {
            OK(TrB_Vector_setElement_UINT64(&pass, v, i % 1000, i));
        }
        OK(TrB_Vector_nvals(&pass, &nvals, v));
        seconds += now() - start;
        HOLDS(nvals == room - 1 && known(&pass) == room);
        TrB_free(&pass);
    }
    return seconds;
}

/* ---- Work that threads share ------------------------------------------------------------------- */

/* What is done on a matrix A of 1,000 rows and columns, whose rows add up to a degree as its columns do: so the total of A
 * is 1,000 times the degree, and that of its product with itself 1,000 times the square of the degree. */
typedef struct {
    uint64_t degree;
    uint64_t products; /* that the first pass adds to a matrix C */
    uint64_t workers;
    uint64_t own;      /* products that each worker adds to a matrix of its own, and counts after each */
} Work;

/* Who works: of these, from one up to another, and by which pass. */
typedef struct {
    const Work *work;
    TrB_Pass *pass;
    uint64_t from, upto;
} Worker;

static TrB_Matrix a, c, own[MOST_WORKERS];

static uint64_t total(TrB_Pass *pass, TrB_Matrix of)
{
    uint64_t x;
    OK(TrB_Matrix_reduce_UINT64(pass, &x, TrB_PLUS, of));
    return x;
}

static void add_product(TrB_Pass *pass, TrB_Matrix to)
{
    OK(TrB_mxm(pass, to, TrB_NO_MATRIX, TrB_PLUS, TrB_PLUS_TIMES, a, a, TrB_DEFAULT));
}

static void *run_workers(void *argument)
{
    const Worker *worker = (const Worker *)argument;
    const Work *work = worker->work;
    uint64_t one = SIDE * work->degree * work->degree;
    for (uint64_t w = worker->from; w < worker->upto; w++) {
        for (uint64_t k = 1; k <= work->own; k++) {
            add_product(worker->pass, own[w]);
            HOLDS(total(worker->pass, own[w]) == k * one);
        }
        if (work->own == 0) {
            uint64_t wanted = work->products > 0 ? work->products * one : SIDE * work->degree;
            HOLDS(total(worker->pass, work->products > 0 ? c : a) == wanted);
        }
    }
    return NULL;
}

/* Builds A: row i has `degree` ones, of which two may be one two. */
static void build(TrB_Pass *pass, uint64_t degree)
{
    uint64_t count = SIDE * degree;
    TrB_Index *rows = (TrB_Index *)calloc(count, sizeof *rows), *columns = (TrB_Index *)calloc(count, sizeof *columns);
    uint64_t *ones = (uint64_t *)calloc(count, sizeof *ones);
    HOLDS(rows != NULL && columns != NULL && ones != NULL);
    for (uint64_t n = 0; n < count; n++) {
        uint64_t k = n % degree;
        rows[n] = n / degree;
        columns[n] = (n / degree + k * (17 * k + 131)) % SIDE;
        ones[n] = 1;
    }
    OK(TrB_Matrix_new(pass, &a, TrB_UINT64, SIDE, SIDE));
    OK(TrB_Matrix_build_UINT64(pass, a, rows, columns, ones, count, TrB_PLUS));
    free(rows);
    free(columns);
    free(ones);
}

/* The work by as many threads as workers, or by one for all. The last pass begins: what it left is prepared, and the
 * others adopt it. */
static double share_work(const Work *work, bool on_threads)
{
    TrB_Pass passes[MOST_WORKERS + 1] = {TRB_PASS_INIT};
    Worker workers[MOST_WORKERS];
    pthread_t started[MOST_WORKERS];
    uint64_t threads = on_threads ? work->workers : 1;
    uint32_t evaluated;
    TrB_Pass *first = &passes[threads];
    OK(TrB_open(ROOM, passes, threads + 1));
    double start = now();
    build(first, work->degree);
    OK(TrB_Matrix_new(first, &c, TrB_UINT64, SIDE, SIDE));
    for (uint64_t k = 0; k < work->products; k++) {
        add_product(first, c);
    }
    for (uint64_t w = 0; work->own > 0 && w < work->workers; w++) {
        OK(TrB_Matrix_new(first, &own[w], TrB_UINT64, SIDE, SIDE));
    }
    OK(TrB_prepare(first, &evaluated));
    for (uint64_t t = 0; t < threads; t++) {
        OK(TrB_adopt(&passes[t], first));
        workers[t] = (Worker){work, &passes[t], on_threads ? t : 0, on_threads ? t + 1 : work->workers};
        HOLDS(pthread_create(&started[t], NULL, run_workers, &workers[t]) == 0);
    }
    for (uint64_t t = 0; t < threads; t++) {
        HOLDS(pthread_join(started[t], NULL) == 0);
    }
    double seconds = now() - start;
    for (uint64_t t = 0; t <= threads; t++) {
        TrB_free(&passes[t]);
    }
    return seconds;
}

static double own_products(uint64_t on_threads)
{
    return share_work(&(Work){8, 0, 4, 30}, on_threads);
}

static double read_products(uint64_t on_threads)
{
    return share_work(&(Work){8, 100, 32, 0}, on_threads);
}

static double read_loaded(uint64_t on_threads)
{
    return share_work(&(Work){60, 0, 63, 0}, on_threads);
}

/* ---- Pairs ------------------------------------------------------------------------------------- */

/* Times a case of so many steps and another in turn, and tells the least time of a step of each. */
static void pair(uint64_t runs, const char *name, uint64_t steps, Round *first, uint64_t of_first, Round *second,
                 uint64_t of_second)
{
    double ours = 0, other = 0;
    for (uint64_t k = 0; k < runs; k++) {
        double a = first(of_first), b = second(of_second);
        ours = k == 0 || a < ours ? a : ours;
        other = k == 0 || b < other ? b : other;
    }
    fprintf(stderr, "%-52s %12.1f %12.1f %8.2f\n", name, 1e9 * ours / (double)steps, 1e9 * other / (double)steps,
            ours / other);
    printf("%s: right\n", name);
    fflush(stdout);
}

int main(int argc, char **argv)
{
    uint64_t runs = argc > 1 ? strtoull(argv[1], NULL, 10) : 3;
    if (runs == 0) {
        fprintf(stderr, "usage: bench_store [RUNS], 1 or more\n");
        return EXIT_FAILURE;
    }
    pair(runs, "a set by 1 thread, the store under a mutex", SETS, by_passes, 1, store_under_mutex, 1);
    pair(runs, "a set by 1 thread, a push under a mutex", SETS, by_passes, 1, list_under_mutex, 1);
    pair(runs, "a set by 2 threads, the store under a mutex", SETS, by_passes, 2, store_under_mutex, 2);
    pair(runs, "a set by 2 threads, a push under a mutex", SETS, by_passes, 2, list_under_mutex, 2);
    pair(runs, "a set by 4 threads, the store under a mutex", SETS, by_passes, 4, store_under_mutex, 4);
    pair(runs, "a set by 4 threads, a push under a mutex", SETS, by_passes, 4, list_under_mutex, 4);
    pair(runs, "a set by 255 threads, by 4", SETS, by_passes, MOST_THREADS, by_passes, 4);
    pair(runs, "a read after 4,000 calls on another object, after 2", 1, read_behind, SOME, read_behind, 2);
    pair(runs, "a read after 65,000 calls on another object, after 2", 1, read_behind, MANY, read_behind, 2);
    pair(runs, "a first read after a wait of another, after none", 1, first_read, 1, first_read, 0);
    pair(runs, "a dup and a read after 60,000 sets, after 600", 1, dup_after, 60000, dup_after, 600);
    pair(runs, "a set after 60,000 calls, after 600", TIMED, set_behind, 60000, set_behind, 600);
    pair(runs, "a set in a store of 65,536 calls, in 16 of 4,096", MOST_ROOM, fill_all, 1, fill_all, 16);
    pair(runs, "a call learnt by a meeting, by a call", MANY, learn, 1, learn, 0);
    pair(runs, "an opening of 16 passes by 65,536 calls, 256 by 4,096", 1, opening, MOST_SEATS / MOST_ROOM, opening,
         MOST_PASSES);
    pair(runs, "a product and its total by 4 threads, by one", 120, own_products, 1, own_products, 0);
    pair(runs, "100 products that 32 threads read, that one reads", 1, read_products, 1, read_products, 0);
    pair(runs, "a loaded matrix that 63 threads read, that one reads", 1, read_loaded, 1, read_loaded, 0);
    return EXIT_SUCCESS;
}

/* Times what a service does that goes on without an end: requests with temporaries in a chain, the same with a branch
 * for each, a successor and a branch of large objects, and reads next to searches.
 *
 *     bench_chain [REQUESTS [ENTRIES]]
 *
 * There are REQUESTS requests (20,000), and each large object has ENTRIES entries (10,000). Times and memory go to
 * standard error. Standard output has one line for each thing that was timed and was right.
 *
 *     cc -std=c11 -O2 -o bench_chain bench_chain.c libgrb_c.a liblibc_c.a -lpthread
 */
#define _POSIX_C_SOURCE 200809L

#include "check.h"
#include "trowelheath.h"

#include <inttypes.h>
#include <pthread.h>
#include <stdatomic.h>
#include <stdio.h>
#include <stdlib.h>
#include <time.h>

enum { ROOM = 4096, SIZE = 16, ROUNDS = 5, LARGE = 4, BRANCH_ROOM = 1024 };
enum { VERTICES = 1024, EDGES = 4, SEARCHERS = 8, SEARCHES = 20, MOST_LEVELS = 64 };

static double seconds(clockid_t clock)
{
    struct timespec t;
    clock_gettime(clock, &t);
    return (double)t.tv_sec + 1e-9 * (double)t.tv_nsec;
}

static double now(void)
{
    return seconds(CLOCK_MONOTONIC);
}

/* The kilobytes of the process that are not given back. */
static long resident(void)
{
    long size = 0, used = 0;
    FILE *file = fopen("/proc/self/statm", "r");
    HOLDS(file != NULL && fscanf(file, "%ld %ld", &size, &used) == 2);
    fclose(file);
    return 4 * used;
}

static void right(const char *what)
{
    printf("%s: right\n", what);
    fflush(stdout);
}

/* ---- Requests ---------------------------------------------------------------------------------- */

/* One request: what is counted at a place, one more than before, by way of two temporaries of these passes' store. */
static uint64_t add_one(TrB_Pass *own, TrB_Vector counts, TrB_Index place)
{
    TrB_Vector added, sum;
    uint64_t count = 0;
    OK(TrB_Vector_new(own, &added, TrB_UINT64, SIZE));
    OK(TrB_Vector_new(own, &sum, TrB_UINT64, SIZE));
    OK(TrB_Vector_setElement_UINT64(own, added, 1, place));
    OK(TrB_Vector_eWiseAdd(own, sum, TrB_NO_VECTOR, TrB_NO_ACCUM, TrB_PLUS, counts, added, TrB_DEFAULT));
    OK(TrB_Vector_extractElement_UINT64(own, &count, sum, place));
    OK(TrB_Vector_free(own, added));
    OK(TrB_Vector_free(own, sum));
    return count;
}

static void ask(TrB_Pass *pass, TrB_Vector counts, TrB_Index place)
{
    OK(TrB_Vector_setElement_UINT64(pass, counts, add_one(pass, counts, place), place));
}

static void ask_apart(TrB_Pass *pass, TrB_Vector counts, TrB_Index place)
{
    TrB_Pass own = TRB_PASS_INIT;
    TrB_Vector there = {0};
    uint64_t needed;
    OK(TrB_branch(pass, &needed, NULL, 0, &counts, 1, SIZE, &own, 1));
    OK(TrB_Vector_setElement_UINT64(pass, counts, add_one(&own, there, place), place));
    TrB_free(&own);
}

static void serve(const char *what, void (*request)(TrB_Pass *, TrB_Vector, TrB_Index), uint64_t requests)
{
    TrB_Pass pass = TRB_PASS_INIT;
    TrB_Vector counts;
    uint64_t total, generation;
    OK(TrB_chain_open(ROOM, &pass, 1));
    OK(TrB_Vector_new(&pass, &counts, TrB_UINT64, SIZE));
    for (TrB_Index k = 0; k < SIZE; k++) {
        OK(TrB_Vector_setElement_UINT64(&pass, counts, 0, k));
    }
    for (uint64_t k = 0; k < requests / 10; k++) {
        request(&pass, counts, k % SIZE);
    }
    long before = resident();
    double start = now();
    for (uint64_t k = requests / 10; k < requests; k++) {
        request(&pass, counts, k % SIZE);
    }
    double took = (now() - start) / (double)(requests - requests / 10);
    long grown = resident() - before;
    OK(TrB_Vector_reduce_UINT64(&pass, &total, TrB_PLUS, counts));
    HOLDS(total == requests);
    OK(TrB_chain_generation(&pass, &generation));
    fprintf(stderr, "%-48s %10.3f us a request, %" PRIu64 " generations, %ld kB more at the end\n", what, 1e6 * took,
            generation, grown);
    TrB_free(&pass);
    right(what);
}

/* ---- Large objects ----------------------------------------------------------------------------- */

/* A matrix of so many entries, each row with ten. */
static TrB_Matrix build(TrB_Pass *pass, uint64_t entries)
{
    TrB_Index *rows = (TrB_Index *)calloc(entries, sizeof *rows), *columns = (TrB_Index *)calloc(entries, sizeof *columns);
    uint64_t *values = (uint64_t *)calloc(entries, sizeof *values);
    TrB_Matrix a;
    HOLDS(rows != NULL && columns != NULL && values != NULL);
    for (uint64_t k = 0; k < entries; k++) {
        rows[k] = k / 10;
        columns[k] = k % 10 * 7 + k / 10 % 7;
        values[k] = k;
    }
    OK(TrB_Matrix_new(pass, &a, TrB_UINT64, entries / 10 + 1, 80));
    OK(TrB_Matrix_build_UINT64(pass, a, rows, columns, values, entries, TrB_PLUS));
    free(rows);
    free(columns);
    free(values);
    return a;
}

static void open_large(TrB_Pass *pass, TrB_Matrix *matrices, uint64_t entries)
{
    OK(TrB_open(ROOM, pass, 1));
    for (size_t k = 0; k < LARGE; k++) {
        TrB_Index nvals;
        matrices[k] = build(pass, entries);
        OK(TrB_Matrix_nvals(pass, &nvals, matrices[k]));
        HOLDS(nvals == entries);
    }
    OK(TrB_Matrix_wait(pass, matrices[0], TrB_MATERIALIZE));
}

/* The opened store has each object, with as many entries. */
static void see(TrB_Pass *opened, uint64_t entries)
{
    for (uint32_t k = 0; k < LARGE; k++) {
        TrB_Matrix there = {k};
        TrB_Index nvals;
        OK(TrB_Matrix_nvals(opened, &nvals, there));
        HOLDS(nvals == entries);
    }
}

static void go_on(uint64_t entries)
{
    TrB_Pass pass = TRB_PASS_INIT;
    TrB_Matrix matrices[LARGE];
    double least_succeed = 1e9, least_branch = 1e9;
    long grown = 0;
    open_large(&pass, matrices, entries);
    for (int k = 0; k < ROUNDS; k++) {
        TrB_Pass next = TRB_PASS_INIT, own = TRB_PASS_INIT;
        uint64_t needed;
        double start = now();
        OK(TrB_succeed(&pass, &needed, BRANCH_ROOM, &next, 1));
        double took = now() - start;
        least_succeed = took < least_succeed ? took : least_succeed;
        see(&next, entries);
        TrB_free(&next);

        long before = resident();
        start = now();
        OK(TrB_branch(&pass, &needed, matrices, LARGE, NULL, 0, BRANCH_ROOM, &own, 1));
        took = now() - start;
        least_branch = took < least_branch ? took : least_branch;
        grown = k == 0 ? resident() - before : grown;
        see(&own, entries);
        TrB_free(&own);
    }
    fprintf(stderr, "%-48s %10.3f ms\n", "a successor of four large objects", 1e3 * least_succeed);
    fprintf(stderr, "%-48s %10.3f us, %ld kB\n", "a branch of four large objects", 1e6 * least_branch, grown);
    TrB_free(&pass);
    right("a successor of four large objects");
    right("a branch of four large objects");
}

/* ---- Searches ---------------------------------------------------------------------------------- */

static TrB_Matrix graph;
static atomic_int searching;

/* Where the searches are made. */
static enum where { NOWHERE, IN_THE_CHAIN, IN_BRANCHES } where;

/* Each vertex has edges to the next one and to three farther ones. */
static TrB_Index target(TrB_Index i, TrB_Index k)
{
    static const TrB_Index step[EDGES] = {1, 17, 301, 499};
    return (i + step[k]) % VERTICES;
}

static void make_graph(TrB_Pass *pass)
{
    OK(TrB_Matrix_new(pass, &graph, TrB_BOOL, VERTICES, VERTICES));
    for (TrB_Index i = 0; i < VERTICES; i++) {
        for (TrB_Index k = 0; k < EDGES; k++) {
            OK(TrB_Matrix_setElement_BOOL(pass, graph, true, i, target(i, k)));
        }
    }
    OK(TrB_Matrix_wait(pass, graph, TrB_MATERIALIZE));
}

/* How many vertices are reached from the first one, in the store of this pass, where the graph is this. */
static TrB_Index search(TrB_Pass *own, TrB_Matrix there)
{
    TrB_Vector seen, front;
    TrB_Index reached = 0, before = 0;
    OK(TrB_Vector_new(own, &seen, TrB_BOOL, VERTICES));
    OK(TrB_Vector_new(own, &front, TrB_BOOL, VERTICES));
    OK(TrB_Vector_setElement_BOOL(own, front, true, 0));
    for (int level = 0; level < MOST_LEVELS; level++) {
        OK(TrB_Vector_eWiseAdd(own, seen, TrB_NO_VECTOR, TrB_NO_ACCUM, TrB_LOR, seen, front, TrB_DEFAULT));
        OK(TrB_vxm(own, front, seen, TrB_NO_ACCUM, TrB_LOR_LAND, front, there, TrB_REPLACE | TrB_COMP | TrB_STRUCTURE));
        OK(TrB_Vector_nvals(own, &reached, seen));
        if (reached == before) {
            break;
        }
        before = reached;
    }
    OK(TrB_Vector_free(own, seen));
    OK(TrB_Vector_free(own, front));
    return reached;
}

/* Searches, each in a branch of its own or in the chain; or pauses in their place. */
static void *search_all(void *argument)
{
    TrB_Pass *pass = (TrB_Pass *)argument;
    for (int k = 0; k < SEARCHES; k++) {
        if (where == NOWHERE) {
            struct timespec pause = {0, 1000000};
            nanosleep(&pause, NULL);
        } else if (where == IN_BRANCHES) {
            TrB_Pass own = TRB_PASS_INIT;
            TrB_Matrix there = {0};
            uint64_t needed;
            OK(TrB_Matrix_wait(pass, graph, TrB_COMPLETE));
            OK(TrB_branch(pass, &needed, &graph, 1, NULL, 0, 2 * MOST_LEVELS + 8, &own, 1));
            HOLDS(search(&own, there) == VERTICES);
            TrB_free(&own);
        } else {
            HOLDS(search(pass, graph) == VERTICES);
        }
    }
    atomic_fetch_sub(&searching, 1);
    return NULL;
}

/* Sets edges that are there, as long as others search. */
static void *change(void *argument)
{
    TrB_Pass *pass = (TrB_Pass *)argument;
    for (TrB_Index k = 0; atomic_load(&searching) > 0; k++) {
        OK(TrB_Matrix_setElement_BOOL(pass, graph, true, k % VERTICES, target(k % VERTICES, k % EDGES)));
        struct timespec pause = {0, 100000};
        nanosleep(&pause, NULL);
    }
    return NULL;
}

/* Reads edges, as long as others search. Answers the processor's time of a read. */
static double read_all(TrB_Pass *pass)
{
    uint64_t reads = 0;
    double start = seconds(CLOCK_THREAD_CPUTIME_ID);
    do {
        bool is_edge = false;
        OK(TrB_Matrix_extractElement_BOOL(pass, &is_edge, graph, reads % VERTICES, target(reads % VERTICES, 0)));
        HOLDS(is_edge);
        reads++;
        if (reads % 16 == 0) {
            struct timespec pause = {0, 100000};
            nanosleep(&pause, NULL);
        }
    } while (atomic_load(&searching) > 0);
    return (seconds(CLOCK_THREAD_CPUTIME_ID) - start) / (double)reads;
}

/* The time of a read next to eight threads that search and one that changes the graph. */
static double read_beside(enum where searches)
{
    TrB_Pass passes[SEARCHERS + 2] = {TRB_PASS_INIT};
    pthread_t threads[SEARCHERS + 1];
    where = searches;
    OK(TrB_chain_open(ROOM, passes, SEARCHERS + 2));
    make_graph(&passes[0]);
    atomic_store(&searching, SEARCHERS);
    for (size_t t = 0; t <= SEARCHERS; t++) {
        void *(*run)(void *) = t < SEARCHERS ? search_all : change;
        HOLDS(pthread_create(&threads[t], NULL, run, &passes[t]) == 0);
    }
    double took = read_all(&passes[SEARCHERS + 1]);
    for (size_t t = 0; t <= SEARCHERS; t++) {
        HOLDS(pthread_join(threads[t], NULL) == 0);
    }
    for (size_t t = 0; t < SEARCHERS + 2; t++) {
        TrB_free(&passes[t]);
    }
    return took;
}

static void read_next_to_searches(void)
{
    double least[] = {1e9, 1e9, 1e9};
    for (int k = 0; k < ROUNDS; k++) {
        for (enum where searches = NOWHERE; searches <= IN_BRANCHES; searches++) {
            double took = read_beside(searches);
            least[searches] = took < least[searches] ? took : least[searches];
        }
    }
    fprintf(stderr, "%-48s %10.3f us in branches, %.3f us in the chain, %.3f us without, ratio %.2f\n",
            "a read next to searches", 1e6 * least[IN_BRANCHES], 1e6 * least[IN_THE_CHAIN], 1e6 * least[NOWHERE],
            least[IN_BRANCHES] / least[NOWHERE]);
    right("a read next to searches");
}

/* A number of the command line, or this one where it is not given. */
static uint64_t argument(int argc, char **argv, int place, uint64_t missing)
{
    uint64_t number = argc > place ? strtoull(argv[place], NULL, 10) : missing;
    if (number < 100) {
        fprintf(stderr, "usage: bench_chain [REQUESTS [ENTRIES]], each 100 or more\n");
        exit(EXIT_FAILURE);
    }
    return number;
}

int main(int argc, char **argv)
{
    uint64_t requests = argument(argc, argv, 1, 20000), entries = argument(argc, argv, 2, 10000);
    serve("a request with two temporaries", ask, requests);
    serve("a request with a branch", ask_apart, requests);
    go_on(entries);
    read_next_to_searches();
    return EXIT_SUCCESS;
}

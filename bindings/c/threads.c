/* Four threads fill one graph, each by a pass of its own, and then each counts its triangles.
 *
 *     cc -std=c11 -O2 -pthread -o threads threads.c libgrb_c.a liblibc_c.a
 */
#include "check.h"
#include "graph.h"
#include "trowelheath.h"

#include <inttypes.h>
#include <pthread.h>
#include <stdio.h>

enum { THREADS = 4, SHARE = 1000, EDGES = THREADS * SHARE };

static TrB_Index from[EDGES], to[EDGES];
static uint64_t weight[EDGES];
static Adjacency is_edge;

/* What one thread has. The pass is its own; the graph is shared. */
typedef struct {
    TrB_Pass *pass;
    TrB_Matrix graph;
    size_t first;       /* the first edge of its share */
    uint64_t triangles; /* what it counted */
} Worker;

/* Stores the share. The pass sees each of its own entries at once, and of the others more and more. */
static void *fill(void *argument)
{
    const Worker *worker = (const Worker *)argument;
    TrB_Index before = 0;
    for (size_t k = worker->first; k < worker->first + SHARE; k++) {
        TrB_Index nvals;
        uint64_t x;
        OK(TrB_Matrix_setElement_UINT64(worker->pass, worker->graph, 1, from[k], to[k]));
        OK(TrB_Matrix_extractElement_UINT64(worker->pass, &x, worker->graph, from[k], to[k]));
        OK(TrB_Matrix_nvals(worker->pass, &nvals, worker->graph));
        HOLDS(x == 1);
        HOLDS(nvals > 0 && nvals >= before);
        before = nvals;
    }
    return NULL;
}

/* Counts the triangles of the whole graph in a matrix of its own. */
static void *count(void *argument)
{
    Worker *worker = (Worker *)argument;
    TrB_Matrix t;
    OK(TrB_Matrix_new(worker->pass, &t, TrB_UINT64, VERTICES, VERTICES));
    OK(TrB_mxm(worker->pass, t, worker->graph, TrB_NO_ACCUM, TrB_PLUS_TIMES, worker->graph, worker->graph,
               TrB_STRUCTURE));
    OK(TrB_Matrix_reduce_UINT64(worker->pass, &worker->triangles, TrB_PLUS, t));
    OK(TrB_Matrix_free(worker->pass, t));
    return NULL;
}

/* Runs one function on all workers at the same time, and waits for them. */
static void run(void *(*function)(void *), Worker *workers)
{
    pthread_t threads[THREADS];
    for (size_t t = 0; t < THREADS; t++) {
        HOLDS(pthread_create(&threads[t], NULL, function, &workers[t]) == 0);
    }
    for (size_t t = 0; t < THREADS; t++) {
        HOLDS(pthread_join(threads[t], NULL) == 0);
    }
}

int main(void)
{
    draw_edges(4, EDGES, from, to, weight);
    put_below_diagonal(EDGES, from, to);

    TrB_Pass passes[THREADS] = {TRB_PASS_INIT};
    TrB_Matrix graph;
    OK(TrB_open(EDGES + 16, passes, THREADS));
    OK(TrB_Matrix_new(&passes[0], &graph, TrB_UINT64, VERTICES, VERTICES));

    Worker workers[THREADS];
    for (size_t t = 0; t < THREADS; t++) {
        workers[t] = (Worker){.pass = &passes[t], .graph = graph, .first = t * SHARE};
    }
    run(fill, workers);

    /* The threads have been joined, so every pass sees what all of them did. */
    uint64_t edges = mark_edges(is_edge, EDGES, from, to);
    for (size_t t = 0; t < THREADS; t++) {
        TrB_Index nvals;
        OK(TrB_Matrix_nvals(&passes[t], &nvals, graph));
        HOLDS(nvals == edges);
    }
    run(count, workers);

    printf("%d vertices, %" PRIu64 " edges by %d threads\n", VERTICES, edges, THREADS);
    uint64_t triangles = triangles_by_hand(is_edge);
    for (size_t t = 0; t < THREADS; t++) {
        HOLDS(workers[t].triangles == triangles);
        printf("pass %zu: %" PRIu64 " triangles\n", t, workers[t].triangles);
        TrB_free(&passes[t]);
    }
    return 0;
}

/* Products that passes make together: by one reader alone, with help, and by four readers who want the same at the
 * same time. A store of two passes and more has a board, where a dear product is posted, and its passes make blocks of
 * it; a store of one pass has none.
 *
 * Times go to standard error: the median of five rounds, in seconds, and that divided by the time of one reader without
 * a board; the processor time of all readers, the median too; then how many blocks a round made, and how many of them
 * those who help. Standard output has one line for each way that was right in each round: all readers have as many
 * entries, of one total, and those of the first are entry by entry what the loop by hand makes.
 */
#define _POSIX_C_SOURCE 200809L

#include "bench.h"

#include <inttypes.h>
#include <pthread.h>
#include <stdatomic.h>
#include <stdlib.h>
#include <time.h>

enum { MOST_PASSES = 4, ROOM = 256 };

/* ---- Stores ------------------------------------------------------------------------------------ */

/* Who makes a product in the store, or in a store of each reader's own. */
typedef struct {
    const char *name;
    size_t readers, helpers;
    bool is_apart;
} Way;

static const Way ways[] = {
    {"one reader, no board", 1, 0, true},
    {"one reader, a board", 1, 0, false},
    {"one reader, three help", 1, 3, false},
    {"four readers, no board", 4, 0, true},
    {"four readers, a board", 4, 0, false},
};

static TrB_Pass passes[MOST_PASSES] = {TRB_PASS_INIT};

/* The graph, and its edges below the diagonal. They have the same numbers in each store. */
static TrB_Matrix a, l;

static TrB_Matrix matrix_of(TrB_Pass *pass, const Tuples *tuples)
{
    TrB_Matrix c;
    OK(TrB_Matrix_new(pass, &c, TrB_UINT64, vertices, vertices));
    OK(TrB_Matrix_build_UINT64(pass, c, tuples->rows, tuples->columns, tuples->values, tuples->nvals, TrB_PLUS));
    return c;
}

static void load(TrB_Pass *pass)
{
    a = matrix_of(pass, &graph);
    l = matrix_of(pass, &below);
    OK(TrB_Matrix_wait(pass, a, TrB_MATERIALIZE));
}

/* One reader in a store with a board has a pass beside it that does nothing. */
static void open_stores(const Way *way)
{
    size_t needed = way->readers + way->helpers;
    if (way->is_apart) {
        for (size_t k = 0; k < way->readers; k++) {
            OK(TrB_open(ROOM, &passes[k], 1));
            load(&passes[k]);
        }
        return;
    }
    OK(TrB_open(ROOM, passes, needed < 2 ? 2 : needed));
    load(&passes[0]);
    for (size_t k = 1; k < needed; k++) {
        OK(TrB_adopt(&passes[k], &passes[0]));
    }
}

static void close_stores(void)
{
    for (size_t k = 0; k < MOST_PASSES; k++) {
        TrB_free(&passes[k]);
    }
}

/* ---- A round ----------------------------------------------------------------------------------- */

typedef TrB_Info Enter(TrB_Pass *pass, TrB_Matrix c);

static TrB_Info enter_triangles(TrB_Pass *pass, TrB_Matrix c)
{
    return TrB_mxm(pass, c, l, TrB_NO_ACCUM, TrB_PLUS_TIMES, l, l, TrB_STRUCTURE);
}

static TrB_Info enter_mxm(TrB_Pass *pass, TrB_Matrix c)
{
    return TrB_mxm(pass, c, TrB_NO_MATRIX, TrB_NO_ACCUM, TrB_PLUS_TIMES, a, a, TrB_DEFAULT);
}

/* What one thread has: a pass, and for a reader the product that it writes, when it began and ended, and for how long
 * it had a processor, or for who helps how many blocks it made. */
typedef struct {
    TrB_Pass *pass;
    Enter *enter;
    TrB_Matrix output;
    TrB_Index nvals;
    double start, end, processor;
    uint64_t made;
} Worker;

/* The seconds for which this thread has had a processor. */
static double had_processor(void)
{
    struct timespec time;
    HOLDS(clock_gettime(CLOCK_THREAD_CPUTIME_ID, &time) == 0);
    return (double)time.tv_sec + 1e-9 * (double)time.tv_nsec;
}

static pthread_barrier_t begin;
static atomic_bool is_over;

static void wait_for_all(void)
{
    int status = pthread_barrier_wait(&begin);
    HOLDS(status == 0 || status == PTHREAD_BARRIER_SERIAL_THREAD);
}

static void *read_product(void *argument)
{
    Worker *worker = (Worker *)argument;
    wait_for_all();
    worker->start = now();
    double before = had_processor();
    OK(worker->enter(worker->pass, worker->output));
    OK(TrB_Matrix_nvals(worker->pass, &worker->nvals, worker->output));
    worker->processor = had_processor() - before;
    worker->end = now();
    return NULL;
}

static void *help(void *argument)
{
    Worker *worker = (Worker *)argument;
    const struct timespec nap = {.tv_nsec = 50000};
    wait_for_all();
    while (!atomic_load(&is_over)) {
        uint32_t made;
        OK(TrB_help(worker->pass, &made));
        worker->made += made;
        if (made == 0) {
            nanosleep(&nap, NULL);
        }
    }
    return NULL;
}

/* Runs all at the same time. Answers the seconds from the first reader's begin to the last one's end. */
static double run(const Way *way, Worker *workers)
{
    pthread_t threads[MOST_PASSES];
    size_t count = way->readers + way->helpers;
    HOLDS(pthread_barrier_init(&begin, NULL, (unsigned)count) == 0);
    atomic_store(&is_over, false);
    for (size_t k = 0; k < count; k++) {
        HOLDS(pthread_create(&threads[k], NULL, k < way->readers ? read_product : help, &workers[k]) == 0);
    }
    double start = 0, end = 0;
    for (size_t k = 0; k < way->readers; k++) {
        HOLDS(pthread_join(threads[k], NULL) == 0);
        start = k == 0 || workers[k].start < start ? workers[k].start : start;
        end = workers[k].end > end ? workers[k].end : end;
    }
    atomic_store(&is_over, true);
    for (size_t k = way->readers; k < count; k++) {
        HOLDS(pthread_join(threads[k], NULL) == 0);
    }
    HOLDS(pthread_barrier_destroy(&begin) == 0);
    return end - start;
}

/* The first reader's product entry by entry; of the others, that they have as many and the same total. */
static void see(const Way *way, const Worker *workers, Outcome *outcome)
{
    uint64_t wanted;
    Tuples found = room_for(workers[0].nvals, true);
    OK(TrB_Matrix_extractTuples_UINT64(workers[0].pass, found.rows, found.columns, found.values, &found.nvals,
                                       workers[0].output));
    *outcome = (Outcome){found.nvals, digest(&found)};
    free_tuples(&found);
    OK(TrB_Matrix_reduce_UINT64(workers[0].pass, &wanted, TrB_PLUS, workers[0].output));
    for (size_t k = 0; k < way->readers; k++) {
        uint64_t total;
        OK(TrB_Matrix_reduce_UINT64(workers[k].pass, &total, TrB_PLUS, workers[k].output));
        HOLDS(workers[k].nvals == outcome->nvals && total == wanted);
    }
}

/* How many blocks the round made in all, and by those who help. */
typedef struct {
    uint64_t made, helped;
} Blocks;

/* Nothing else is left to do when the time begins. The outputs are freed after. Answers the seconds that the round
 * took, and leaves the processor time of its readers. */
static double make_round(const Way *way, Enter *enter, Outcome *outcome, Blocks *blocks, double *processor)
{
    Worker workers[MOST_PASSES];
    uint64_t before, after;
    for (size_t k = 0; k < way->readers + way->helpers; k++) {
        workers[k] = (Worker){.pass = &passes[k], .enter = enter};
        if (k < way->readers) {
            OK(TrB_Matrix_new(&passes[k], &workers[k].output, TrB_UINT64, vertices, vertices));
        }
    }
    for (size_t k = 0; k < way->readers; k++) {
        OK(TrB_Matrix_wait(&passes[k], workers[k].output, TrB_MATERIALIZE));
    }
    OK(TrB_blocks(&passes[0], &before));
    double seconds = run(way, workers);
    OK(TrB_blocks(&passes[0], &after));
    blocks->made += after - before;
    see(way, workers, outcome);
    *processor = 0;
    for (size_t k = 0; k < way->readers + way->helpers; k++) {
        blocks->helped += workers[k].made;
        *processor += workers[k].processor;
        if (k < way->readers) {
            OK(TrB_Matrix_free(&passes[k], workers[k].output));
        }
    }
    return seconds;
}

/* ---- The lines --------------------------------------------------------------------------------- */

/* A product that is timed, and who else makes it. */
typedef struct {
    const char *name;
    Enter *enter;
    Round *by_hand, *theirs, *theirs_by_four;
} Product;

static const Product products[] = {
    {"triangles", enter_triangles, hand_triangles, BESIDE(their_triangles), BESIDE(their_triangles_four)},
    {"A times A", enter_mxm, hand_mxm, BESIDE(their_mxm), BESIDE(their_mxm_four)},
};

static int compare(const void *left, const void *right)
{
    double x = *(const double *)left, y = *(const double *)right;
    return (x > y) - (x < y);
}

static double median(double *times)
{
    qsort(times, ROUNDS, sizeof *times, compare);
    return times[ROUNDS / 2];
}

static bool are_same(const Outcome *found, const Outcome *wanted)
{
    return found->nvals == wanted->nvals && found->digest == wanted->digest;
}

/* The median of a way, of which each round leaves this, and that of the processor time of its readers. */
static double time_way(const Way *way, const Product *product, const Outcome *wanted, Blocks *blocks, double *processor)
{
    double times[ROUNDS], processors[ROUNDS];
    open_stores(way);
    for (int k = 0; k < ROUNDS; k++) {
        Outcome found;
        times[k] = make_round(way, product->enter, &found, blocks, &processors[k]);
        HOLDS(are_same(&found, wanted));
    }
    close_stores();
    *processor = median(processors);
    return median(times);
}

/* The same of a round that makes the product by other means. The first time it tells what is left. */
static double time_other(Round *round, Outcome *wanted)
{
    double times[ROUNDS];
    for (int k = 0; k < ROUNDS; k++) {
        Outcome found;
        times[k] = round(&found);
        *wanted = wanted->nvals == 0 ? found : *wanted;
        HOLDS(are_same(&found, wanted));
    }
    return median(times);
}

static void tell_other(const char *name, double seconds, double alone)
{
    fprintf(stderr, "%-32s %13.9f %7.2f %13s %9s %9s\n", name, seconds, seconds / alone, "-", "-", "-");
}

static void time_product(const Product *product)
{
    Outcome wanted = {0, 0};
    double by_hand = time_other(product->by_hand, &wanted), alone = 0;
    fprintf(stderr, "%-32s %13s %7s %13s %9s %9s\n", product->name, "seconds", "ratio", "processor", "blocks",
            "helped");
    for (size_t k = 0; k < sizeof ways / sizeof ways[0]; k++) {
        Blocks blocks = {0, 0};
        double processor, seconds = time_way(&ways[k], product, &wanted, &blocks, &processor);
        alone = k == 0 ? seconds : alone;
        fprintf(stderr, "%-32s %13.9f %7.2f %13.9f %9" PRIu64 " %9" PRIu64 "\n", ways[k].name, seconds, seconds / alone,
                processor, blocks.made / ROUNDS, blocks.helped / ROUNDS);
        printf("blocks, %s, %s: right\n", product->name, ways[k].name);
        fflush(stdout);
    }
    if (product->theirs != NULL) {
        tell_other("SuiteSparse, one thread", time_other(product->theirs, &wanted), alone);
        tell_other("SuiteSparse, four threads", time_other(product->theirs_by_four, &wanted), alone);
    }
    tell_other("by hand", by_hand, alone);
}

void time_blocks(void)
{
    fprintf(stderr, "blocks: %" PRIu64 " vertices, %" PRIu64 " edges, %" PRIu64 " below the diagonal\n", vertices,
            graph.nvals, below.nvals);
    for (size_t k = 0; k < sizeof products / sizeof products[0]; k++) {
        time_product(&products[k]);
    }
}

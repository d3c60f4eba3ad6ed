/* What the files of the benchmark share: the graphs, what a round leaves, and the rounds themselves. */
#ifndef BENCH_H
#define BENCH_H

#include "check.h"

#include <stddef.h>
#include <stdint.h>

enum {
    ROUNDS = 5,           /* how often each side of a line is timed */
    FEW = 64,             /* entries of the vector that has few */
    PAIR = 2,             /* rows and columns of the matrix that a Kronecker product multiplies by */
    LIGHT = 127,          /* a weight that some half of the edges are above */
    PATH_ROUNDS = 20,     /* rounds of the shortest paths */
    TURNS = 300,          /* sets and gets in turn, and turns of a thread of the service */
    GETS = 7,             /* gets of such a turn */
    TURNS_FOR_COUNT = 16, /* turns from one count of the entries to the next */
    TURNS_FOR_WAIT = 64   /* turns from one wait to the next */
};

/* What a round leaves, to be compared: how many entries, and a sum over the places and values of all. */
typedef struct {
    uint64_t nvals, digest;
} Outcome;

/* One round. It answers the seconds of the part that is timed. */
typedef double Round(Outcome *outcome);

/* Whether a round reads all that it made, for the sum. Where its memory is taken it does not. */
extern bool reads_all;

/* A round of SuiteSparse, where that is there. */
#ifdef TRB_SUITESPARSE
#define BESIDE(round) (round)
#else
#define BESIDE(round) NULL
#endif

/* ---- The graph --------------------------------------------------------------------------------- */

/* Entries as a build takes them, in rising order of row, then column. Those of a vector have no columns. */
typedef struct {
    uint64_t nvals;
    TrB_Index *rows, *columns;
    uint64_t *values;
} Tuples;

/* The graph has no loops, and each edge has a weight. `turned` has its edges turned round, with weights of their
 * own, and `below` a 1 below the diagonal for each two vertices with an edge. */
extern uint64_t vertices;
extern Tuples graph, turned, below;

/* A matrix of PAIR rows and columns, with three entries. */
extern Tuples pair;

/* True, as often as there are edges. */
extern bool *truths;

/* Vectors with a value at every index, at 64 of them, and at one. */
extern Tuples full, few, one;

/* The weight of an edge, from 1 to 255. */
uint64_t weight_of(TrB_Index i, TrB_Index j);

/* ---- Help -------------------------------------------------------------------------------------- */

double now(void);

/* Memory of zeros. */
void *space(uint64_t count, size_t size);

/* Mixes the bits of a number (splitmix64). */
static inline uint64_t mix(uint64_t x)
{
    x += 0x9E3779B97F4A7C15u;
    x = (x ^ (x >> 30)) * 0xBF58476D1CE4E5B9u;
    x = (x ^ (x >> 27)) * 0x94D049BB133111EBu;
    return x ^ (x >> 31);
}

/* What an entry adds to a digest; that of a vector has column 0. */
static inline uint64_t digest_of(TrB_Index i, TrB_Index j, uint64_t x)
{
    return mix(mix(i << 32 | j) ^ x);
}

/* Room for so many entries. */
Tuples room_for(uint64_t nvals, bool has_columns);
void free_tuples(Tuples *tuples);
uint64_t digest(const Tuples *tuples);

/* Whether these are the edges. */
bool are_edges(const Tuples *tuples);

/* The vertex that a query of the service asks for. */
TrB_Index asked(size_t thread, uint64_t turn, uint64_t query);

/* Runs the function on the number of each thread at the same time. Answers the seconds of a turn. */
double run_threads(void *(*function)(void *number));

/* ---- The rounds -------------------------------------------------------------------------------- */

/* By hand, over compressed rows; the graph is laid out first. */
void load_by_hand(void);
void unload_by_hand(void);
Round hand_build, hand_mxm, hand_mxm_bool, hand_triangles, hand_mxv, hand_mxv_min, hand_vxm, hand_vxm_few, hand_vxm_one;
Round hand_add, hand_mult, hand_masked_add, hand_reduce, hand_total, hand_search, hand_paths;
Round hand_transpose, hand_apply, hand_select_below, hand_select_heavy;

/* By SuiteSparse, which is begun once, and takes each graph anew. */
void begin_theirs(void);
void end_theirs(void);
void load_theirs(void);
void unload_theirs(void);
Round their_build, their_mxm, their_mxm_bool, their_triangles, their_mxv, their_mxv_min, their_vxm, their_vxm_few;
Round their_vxm_one, their_add, their_mult, their_masked_add, their_reduce, their_total, their_search, their_paths;
Round their_mxm_unsorted, their_mxm_bool_unsorted, their_pull, their_entries, their_turns, their_service;
Round their_transpose, their_apply, their_select_below, their_select_heavy, their_kronecker;

/* The same with four threads for a call. */
Round their_mxm_four, their_triangles_four;

/* ---- Products by blocks ------------------------------------------------------------------------ */

/* Times two products of the graph that are dear, as passes make them alone, with help and together. The graph is laid
 * out by hand and by SuiteSparse before. */
void time_blocks(void);

#endif

/* Shortest paths from one vertex by products over min and plus, and once more edge by edge.
 *
 *     cc -std=c11 -O2 -o paths paths.c libgrb_c.a liblibc_c.a -lpthread
 */
#include "check.h"
#include "graph.h"
#include "trowelheath.h"

#include <inttypes.h>
#include <stdio.h>

enum { EDGES = 4000, START = 0 };
#define UNREACHED UINT64_MAX

static TrB_Index from[EDGES], to[EDGES];
static uint64_t weight[EDGES];
static uint64_t distance_by_hand[VERTICES];

/* Lets each distance be the least over one more edge, until a round changes none. In a round distances
 * fall and entries are added, so that none did shows in their number and their sum. */
static int relax(TrB_Pass *pass, TrB_Vector distance, TrB_Matrix graph, TrB_Index *reached, uint64_t *sum)
{
    *reached = 0;
    *sum = 0;
    for (int round = 0;; round++) {
        TrB_Index nvals;
        uint64_t total;
        OK(TrB_Vector_nvals(pass, &nvals, distance));
        OK(TrB_Vector_reduce_UINT64(pass, &total, TrB_PLUS, distance));
        if (nvals == *reached && total == *sum) {
            return round - 1;
        }
        *reached = nvals;
        *sum = total;
        OK(TrB_vxm(pass, distance, TrB_NO_VECTOR, TrB_MIN, TrB_MIN_PLUS, distance, graph, TrB_DEFAULT));
    }
}

/* The algorithm of Bellman and Ford. */
static void paths_by_hand(void)
{
    for (size_t i = 0; i < VERTICES; i++) {
        distance_by_hand[i] = UNREACHED;
    }
    distance_by_hand[START] = 0;
    for (bool has_changed = true; has_changed;) {
        has_changed = false;
        for (size_t k = 0; k < EDGES; k++) {
            uint64_t known = distance_by_hand[from[k]];
            if (known != UNREACHED && known + weight[k] < distance_by_hand[to[k]]) {
                distance_by_hand[to[k]] = known + weight[k];
                has_changed = true;
            }
        }
    }
}

int main(void)
{
    draw_edges(3, EDGES, from, to, weight);

    /* Of an edge that comes twice the smaller weight counts. */
    TrB_Pass pass = TRB_PASS_INIT;
    TrB_Matrix graph;
    TrB_Vector distance;
    TrB_Index edges, reached;
    uint64_t sum, farthest;
    OK(TrB_open(VERTICES + 8, &pass, 1));
    OK(TrB_Matrix_new(&pass, &graph, TrB_UINT64, VERTICES, VERTICES));
    OK(TrB_Matrix_build_UINT64(&pass, graph, from, to, weight, EDGES, TrB_MIN));
    OK(TrB_Matrix_nvals(&pass, &edges, graph));
    OK(TrB_Vector_new(&pass, &distance, TrB_UINT64, VERTICES));
    OK(TrB_Vector_setElement_UINT64(&pass, distance, 0, START));
    int rounds = relax(&pass, distance, graph, &reached, &sum);
    OK(TrB_Vector_reduce_UINT64(&pass, &farthest, TrB_MAX, distance));

    paths_by_hand();
    TrB_Index reached_by_hand = 0;
    for (size_t i = 0; i < VERTICES; i++) {
        uint64_t d;
        if (distance_by_hand[i] == UNREACHED) {
            ANSWERS(TrB_Vector_extractElement_UINT64(&pass, &d, distance, i), TrB_NO_VALUE);
        } else {
            OK(TrB_Vector_extractElement_UINT64(&pass, &d, distance, i));
            HOLDS(d == distance_by_hand[i]);
            reached_by_hand++;
        }
    }
    HOLDS(reached == reached_by_hand);
    TrB_free(&pass);

    printf("%d vertices, %" PRIu64 " edges, from vertex %d\n", VERTICES, edges, START);
    printf("%" PRIu64 " reached in %d rounds\n", reached, rounds);
    printf("farthest %" PRIu64 ", sum %" PRIu64 "\n", farthest, sum);
    return 0;
}

/* A thousand races of four passes that begin to read one dear product at one moment. Each has the right one. Together
 * they make fewer than four times the blocks of one that is alone, and where each has a processor hardly more than
 * once.
 *
 * How many blocks a race has depends on when threads get their turns: four times those of one at the most, as four make
 * that share nothing. So all races are counted together, which are to have fewer, and of each 250 one is to have few.
 * Standard error tells the counts.
 *
 *     cc -std=c11 -O2 -pthread -o races races.c libgrb_c.a liblibc_c.a
 */
#define _POSIX_C_SOURCE 200809L

#include "check.h"
#include "trowelheath.h"

#include <inttypes.h>
#include <pthread.h>
#include <stdio.h>
#include <stdlib.h>

/* Two full matrices have 104 * 104 * 104 = 1,124,864 products of entries, which is more than 2^20. */
enum { SIDE = 104, SQUARE = SIDE * SIDE };
enum { READERS = 4, RACES = 1000, GROUP = 250, GROUPS = RACES / GROUP, ROOM = 4096 };

/* How many blocks more than one that is alone four make at the most, where each has a processor. */
enum { FEW = 12 };

/* The entries of a matrix, as a reader gets them. */
typedef struct {
    TrB_Index rows[SQUARE], columns[SQUARE];
    uint64_t values[SQUARE];
} Entries;

/* What all readers share: a matrix of ones but for its first entry, its square, and the start of each step. */
typedef struct {
    TrB_Matrix a, c;
    pthread_barrier_t start;
} Track;

/* One reader. The pass and the entries are its own. The reader of number 0 begins each race, and counts. */
typedef struct {
    Track *track;
    TrB_Pass *pass;
    unsigned number;
    Entries *entries;
    uint64_t alone;       /* how many blocks one makes that is alone */
    uint64_t all;         /* how many were made in all races */
    unsigned few[GROUPS]; /* in how many races of each group they were few */
} Reader;

static uint64_t blocks_of(TrB_Pass *pass)
{
    uint64_t count;
    OK(TrB_blocks(pass, &count));
    return count;
}

static Entries *space_for_entries(void)
{
    Entries *entries = malloc(sizeof *entries);
    HOLDS(entries != NULL);
    return entries;
}

/* The first entry of the matrix in a race, which no other race has. */
static uint64_t first_of(uint64_t race)
{
    return race + 2;
}

/* What the square stores: the first row and the first column have `first` once in place of a one, and the first entry
 * has its square. */
static uint64_t squared(uint64_t first, TrB_Index i, TrB_Index j)
{
    uint64_t others = SIDE - 1;
    return i == 0 && j == 0 ? first * first + others : i == 0 || j == 0 ? first + others : SIDE;
}

/* Sets the first entry, and calls for the square. */
static void begin(TrB_Pass *pass, const Track *track, uint64_t race)
{
    OK(TrB_Matrix_setElement_UINT64(pass, track->a, first_of(race), 0, 0));
    OK(TrB_mxm(pass, track->c, TrB_NO_MATRIX, TrB_NO_ACCUM, TrB_PLUS_TIMES, track->a, track->a, TrB_DEFAULT));
}

/* Reads the square, each entry of it. */
static void read_square(TrB_Pass *pass, const Track *track, uint64_t race, Entries *found)
{
    TrB_Index nvals = SQUARE;
    OK(TrB_Matrix_extractTuples_UINT64(pass, found->rows, found->columns, found->values, &nvals, track->c));
    HOLDS(nvals == SQUARE);
    for (TrB_Index k = 0; k < SQUARE; k++) {
        TrB_Index i = k / SIDE, j = k % SIDE;
        HOLDS(found->rows[k] == i && found->columns[k] == j);
        HOLDS(found->values[k] == squared(first_of(race), i, j));
    }
}

/* In each race, once all are there, one calls for the square. Then all read it. */
static void *run(void *argument)
{
    Reader *reader = (Reader *)argument;
    Track *track = reader->track;
    for (unsigned race = 0; race < RACES; race++) {
        uint64_t before = blocks_of(reader->pass);
        if (reader->number == 0) {
            begin(reader->pass, track, race);
        }
        pthread_barrier_wait(&track->start);
        read_square(reader->pass, track, race, reader->entries);
        pthread_barrier_wait(&track->start);
        if (reader->number == 0) {
            uint64_t made = blocks_of(reader->pass) - before;
            HOLDS(made >= reader->alone && made <= reader->alone * READERS);
            reader->all += made;
            reader->few[race / GROUP] += made <= reader->alone + FEW;
        }
    }
    return NULL;
}

/* Makes the two matrices, and reads a square alone. How many blocks that makes. */
static uint64_t run_alone(TrB_Pass *pass, Track *track, Entries *entries)
{
    for (TrB_Index k = 0; k < SQUARE; k++) {
        entries->rows[k] = k / SIDE;
        entries->columns[k] = k % SIDE;
        entries->values[k] = 1;
    }
    OK(TrB_Matrix_new(pass, &track->a, TrB_UINT64, SIDE, SIDE));
    OK(TrB_Matrix_build_UINT64(pass, track->a, entries->rows, entries->columns, entries->values, SQUARE, TrB_PLUS));
    OK(TrB_Matrix_new(pass, &track->c, TrB_UINT64, SIDE, SIDE));
    begin(pass, track, RACES);
    read_square(pass, track, RACES, entries);
    return blocks_of(pass);
}

int main(void)
{
    TrB_Pass passes[READERS + 1] = {TRB_PASS_INIT};
    Reader readers[READERS] = {0};
    pthread_t threads[READERS];
    Track track;
    Entries *entries = space_for_entries();
    OK(TrB_open(ROOM, passes, READERS + 1));
    HOLDS(pthread_barrier_init(&track.start, NULL, READERS) == 0);
    uint64_t alone = run_alone(&passes[READERS], &track, entries);
    HOLDS(alone > 0);
    for (unsigned k = 0; k < READERS; k++) {
        readers[k] = (Reader){
            .track = &track, .pass = &passes[k], .number = k, .entries = space_for_entries(), .alone = alone};
        HOLDS(pthread_create(&threads[k], NULL, run, &readers[k]) == 0);
    }
    for (unsigned k = 0; k < READERS; k++) {
        HOLDS(pthread_join(threads[k], NULL) == 0);
        free(readers[k].entries);
    }

    fprintf(stderr, "blocks of one alone: %" PRIu64 ", in %d races: %" PRIu64 ", few in", alone, RACES, readers[0].all);
    for (size_t k = 0; k < GROUPS; k++) {
        fprintf(stderr, " %u", readers[0].few[k]);
    }
    fprintf(stderr, " of %d\n", GROUP);
    printf("%d races of %d readers: each has the right product\n", RACES, READERS);
    HOLDS(readers[0].all >= RACES * alone);
    HOLDS(readers[0].all < RACES * alone * READERS);
    for (size_t k = 0; k < GROUPS; k++) {
        HOLDS(readers[0].few[k] > 0);
    }
    printf("together they make a product once, and fewer than %d times\n", READERS);

    for (size_t k = 0; k <= READERS; k++) {
        TrB_free(&passes[k]);
    }
    pthread_barrier_destroy(&track.start);
    free(entries);
    return 0;
}

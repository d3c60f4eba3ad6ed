/* What a generation of a chain begins with is made once. Eight threads set an entry each, again and again, in a chain of
 * little room, which begins with a vector that is built of tuples out of order and was not read: who goes on makes it,
 * and the others wait for that as long as it is worth. Then one pass goes on with 300 vectors that were changed.
 *
 * What is made is counted by the requests for memory, which lead here where it is linked so:
 *
 *     cc -std=c11 -O2 -Wl,--wrap=malloc,--wrap=calloc,--wrap=realloc,--wrap=free \
 *         -o once once.c libgrb_c.a liblibc_c.a -lpthread
 */
#define _POSIX_C_SOURCE 200809L

#include "check.h"
#include "trowelheath.h"

#include <pthread.h>
#include <stdatomic.h>
#include <stdio.h>

enum { MEMBERS = 8, ROOM = 3, TUPLES = 1000000, SUCCESSIONS = 3, MOST_TRIES = 100 };

/* A chain with so many vectors, each with so many entries. */
enum { VECTORS = 300, FEW = 4, SERVICE_ROOM = 1000 };

void *__real_malloc(size_t size);
void *__real_calloc(size_t count, size_t size);
void *__real_realloc(void *block, size_t size);
void __real_free(void *block);
void *__wrap_malloc(size_t size);
void *__wrap_calloc(size_t count, size_t size);
void *__wrap_realloc(void *block, size_t size);
void __wrap_free(void *block);

/* How many requests there were, and how many of them for all tuples' values. */
static atomic_uint requests, large;

static void count(size_t size)
{
    requests++;
    large += size >= sizeof(uint64_t) * TUPLES;
}

void *__wrap_malloc(size_t size)
{
    count(size);
    return __real_malloc(size);
}

void *__wrap_calloc(size_t items, size_t size)
{
    count(items * size);
    return __real_calloc(items, size);
}

void *__wrap_realloc(void *block, size_t size)
{
    count(size);
    return __real_realloc(block, size);
}

void __wrap_free(void *block)
{
    __real_free(block);
}

/* ---- Members that go on at one time ------------------------------------------------------------- */

static TrB_Index indices[TUPLES];
static uint64_t values[TUPLES];

/* What one thread has: its pass, the vector, and the place that it sets. */
typedef struct {
    TrB_Pass *pass;
    TrB_Vector v;
    TrB_Index place;
} Member;

static pthread_barrier_t barrier;

/* Sets an entry as all others do, and again where they make the next generation meanwhile. */
static void *set(void *argument)
{
    const Member *member = (const Member *)argument;
    TrB_Info info = TrB_ORDER_FULL;
    pthread_barrier_wait(&barrier);
    for (int k = 0; info == TrB_ORDER_FULL && k < MOST_TRIES; k++) {
        info = TrB_Vector_setElement_UINT64(member->pass, member->v, 1, member->place);
    }
    OK(info);
    return NULL;
}

/* All of them at once, or one after another. */
static void set_all(TrB_Pass *passes, TrB_Vector v, bool at_once)
{
    pthread_t threads[MEMBERS];
    Member members[MEMBERS];
    HOLDS(pthread_barrier_init(&barrier, NULL, at_once ? MEMBERS : 1) == 0);
    for (size_t k = 0; k < MEMBERS; k++) {
        members[k] = (Member){.pass = &passes[k], .v = v, .place = k};
        if (!at_once) {
            set(&members[k]);
        } else {
            HOLDS(pthread_create(&threads[k], NULL, set, &members[k]) == 0);
        }
    }
    for (size_t k = 0; at_once && k < MEMBERS; k++) {
        HOLDS(pthread_join(threads[k], NULL) == 0);
    }
    HOLDS(pthread_barrier_destroy(&barrier) == 0);
}

/* How many large requests all members make together, from an unread build to the end. */
static unsigned requests_of(bool at_once)
{
    TrB_Pass passes[MEMBERS] = {TRB_PASS_INIT};
    TrB_Vector v;
    TrB_Index nvals;
    uint64_t generation = 0;
    OK(TrB_chain_open(ROOM, passes, MEMBERS));
    OK(TrB_Vector_new(&passes[0], &v, TrB_UINT64, TUPLES));
    OK(TrB_Vector_build_UINT64(&passes[0], v, indices, values, TUPLES, TrB_PLUS));
    unsigned before = large;
    set_all(passes, v, at_once);
    unsigned made = large - before;
    OK(TrB_Vector_nvals(&passes[0], &nvals, v));
    OK(TrB_chain_generation(&passes[0], &generation));
    HOLDS(nvals == TUPLES && generation == SUCCESSIONS);
    for (size_t k = 0; k < MEMBERS; k++) {
        TrB_free(&passes[k]);
    }
    return made;
}

/* Eight at once make no more than twice what one makes alone. */
static void at_once(void)
{
    for (size_t k = 0; k < TUPLES; k++) {
        indices[k] = (TrB_Index)(k * 7919 % TUPLES);
        values[k] = k;
    }
    unsigned alone = requests_of(false), together = requests_of(true);
    fprintf(stderr, "requests for %d values: %u one after another, %u at once\n", TUPLES, alone, together);
    HOLDS(alone > 0 && together <= 2 * alone);
    printf("%d members at once make no more than two\n", MEMBERS);
}

/* ---- One that goes on with many objects --------------------------------------------------------- */

/* How many requests a pass makes that goes on with all vectors, of which some or none were changed since they were read. It
 * may wait for each before. */
static unsigned requests_with(size_t changed, bool waits)
{
    static TrB_Vector vectors[VECTORS];
    TrB_Pass pass = TRB_PASS_INIT;
    TrB_Facts facts;
    TrB_Index nvals;
    uint64_t needed = 0;
    bool moved = false;
    OK(TrB_chain_open(SERVICE_ROOM, &pass, 1));
    for (size_t k = 0; k < VECTORS; k++) {
        OK(TrB_Vector_new(&pass, &vectors[k], TrB_UINT64, FEW));
        OK(TrB_Vector_setElement_UINT64(&pass, vectors[k], k, 0));
    }
    OK(TrB_facts(&pass, &facts));
    for (uint32_t k = 0; k + changed < facts.room_left; k++) {
        OK(TrB_Vector_setElement_UINT64(&pass, vectors[0], k, 1));
    }
    OK(TrB_Vector_wait(&pass, vectors[0], TrB_MATERIALIZE));
    for (size_t k = 0; k < changed; k++) {
        OK(TrB_Vector_setElement_UINT64(&pass, vectors[k], k, 2));
    }

    unsigned before = requests;
    for (size_t k = 0; waits && k < VECTORS; k++) {
        OK(TrB_Vector_wait(&pass, vectors[k], TrB_COMPLETE));
    }
    OK(TrB_chain_go_on(&pass, &needed, &moved));
    unsigned made = requests - before;
    HOLDS(moved);
    for (size_t k = 0; k < VECTORS; k++) {
        OK(TrB_Vector_nvals(&pass, &nvals, vectors[k]));
        HOLDS(nvals == 1u + (k == 0) + (k < changed));
    }
    TrB_free(&pass);
    return made;
}

/* Each vector that was changed is made as a wait makes it, and nothing else is. */
static void with_many(void)
{
    unsigned none = requests_with(0, false), all = requests_with(VECTORS, false), waited = requests_with(VECTORS, true);
    fprintf(stderr, "requests to go on with %d vectors: %u, %u where all were changed, %u with a wait for each\n", VECTORS,
            none, all, waited);
    HOLDS(none < all && all <= waited);
    printf("%d changed vectors are made as waits make them\n", VECTORS);
}

int main(void)
{
    at_once();
    with_many();
    return 0;
}

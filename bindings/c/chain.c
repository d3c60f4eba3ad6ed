/* A service without an end: 50,000 requests of four threads in a chain of stores, each with two temporaries, and an
 * analysis in a branch, whose result comes back. The memory stays what it is. Then eight threads and a pass that is
 * idle, in a chain whose generations are far too short for all of their numbers.
 *
 *     cc -std=c11 -O2 -pthread -o chain chain.c libgrb_c.a liblibc_c.a
 */
#define _POSIX_C_SOURCE 200809L

#include "check.h"
#include "trowelheath.h"

#include <inttypes.h>
#include <pthread.h>
#include <stdio.h>
#include <time.h>

enum { WORKERS = 4, REQUESTS = 50000, FIRST = 1000, SIZE = 16, ROOM = 4096, MOST_GROWTH = 16384 };

/* Threads, the requests of each, and how many changes each generation takes. A request gets two numbers. */
enum { CROWD = 8, EACH = 360, SHORT = 16, GIVEN = 2 * CROWD * EACH, MOST_TRIES = 100000 };

/* What one thread has. The pass is its own; the counts are shared, and it counts at its own place. */
typedef struct {
    TrB_Pass *pass;
    TrB_Vector counts;
    TrB_Index own;
    unsigned times;
} Worker;

/* The pages of the process that are not given back. */
static long resident(void)
{
    long size = 0, used = 0;
    FILE *file = fopen("/proc/self/statm", "r");
    HOLDS(file != NULL && fscanf(file, "%ld %ld", &size, &used) == 2);
    fclose(file);
    return used;
}

/* So many requests: what is counted there, one more than before each, by way of two temporaries. */
static void *serve(void *argument)
{
    const Worker *worker = (const Worker *)argument;
    TrB_Pass *pass = worker->pass;
    for (unsigned k = 0; k < worker->times; k++) {
        TrB_Vector one, sum;
        uint64_t count = 0;
        OK(TrB_Vector_new(pass, &one, TrB_UINT64, SIZE));
        OK(TrB_Vector_new(pass, &sum, TrB_UINT64, SIZE));
        OK(TrB_Vector_setElement_UINT64(pass, one, 1, worker->own));
        OK(TrB_Vector_eWiseAdd(pass, sum, TrB_NO_VECTOR, TrB_NO_ACCUM, TrB_PLUS, worker->counts, one, TrB_DEFAULT));
        OK(TrB_Vector_extractElement_UINT64(pass, &count, sum, worker->own));
        OK(TrB_Vector_setElement_UINT64(pass, worker->counts, count, worker->own));
        OK(TrB_Vector_free(pass, one));
        OK(TrB_Vector_free(pass, sum));
    }
    return NULL;
}

/* All threads at once, each with its share of the requests. */
static void serve_all(TrB_Pass *passes, TrB_Vector counts)
{
    pthread_t threads[WORKERS];
    Worker workers[WORKERS];
    for (size_t t = 0; t < WORKERS; t++) {
        workers[t] = (Worker){.pass = &passes[t], .counts = counts, .own = t, .times = REQUESTS / WORKERS};
        HOLDS(pthread_create(&threads[t], NULL, serve, &workers[t]) == 0);
    }
    for (size_t t = 0; t < WORKERS; t++) {
        HOLDS(pthread_join(threads[t], NULL) == 0);
    }
}

/* The squares of the counts, found in a branch while the chain goes on, and brought back. The counts have the number 0
 * there. */
static void publish(TrB_Pass *pass, TrB_Vector counts, TrB_Vector squares)
{
    TrB_Pass own = TRB_PASS_INIT;
    TrB_Vector there = {0}, made;
    uint64_t needed, generation;
    OK(TrB_branch(pass, &needed, NULL, 0, &counts, 1, 10, &own, 1));
    OK(TrB_Vector_clear(pass, counts));
    OK(TrB_Vector_new(&own, &made, TrB_UINT64, SIZE));
    OK(TrB_Vector_eWiseMult(&own, made, TrB_NO_VECTOR, TrB_NO_ACCUM, TrB_TIMES, there, there, TrB_DEFAULT));
    OK(TrB_Vector_build_from(pass, squares, &own, made));
    ANSWERS(TrB_chain_generation(&own, &generation), TrB_INVALID_VALUE);
    TrB_free(&own);
}

/* What the passes were not asked for while they served. */
static void end(TrB_Pass *passes, TrB_Vector counts)
{
    uint64_t generation = 0, needed = 0;
    bool moved = true, full = true;
    TrB_Facts facts;
    TrB_Index nvals;
    OK(TrB_chain_generation(&passes[0], &generation));
    HOLDS(generation > 50);
    OK(TrB_chain_go_on(&passes[0], &needed, &moved));
    HOLDS(!moved);
    OK(TrB_is_full(&passes[0], &full));
    HOLDS(!full);

    /* A chain goes on by itself. The pass of a thread that has ended is had anew. */
    TrB_Pass next = TRB_PASS_INIT;
    ANSWERS(TrB_succeed(&passes[0], &needed, ROOM, &next, 1), TrB_INVALID_VALUE);
    TrB_free(&passes[1]);
    OK(TrB_chain_seat(&passes[0], 1, &passes[1]));
    OK(TrB_facts(&passes[1], &facts));
    HOLDS(facts.number == 1);
    OK(TrB_Vector_nvals(&passes[1], &nvals, counts));
    HOLDS(nvals == 0);
}

/* What one of the crowd has, and the numbers that it was given. */
typedef struct {
    TrB_Pass *pass;
    TrB_Vector count;
    uint32_t given[2 * EACH];
} Member;

/* Makes a change, again and again where others make the next generation meanwhile. */
#define GOES_ON(call)                                                    \
    do {                                                                 \
        const struct timespec nap = {.tv_nsec = 100000};                 \
        TrB_Info info = (call);                                          \
        for (int k = 1; info == TrB_ORDER_FULL && k < MOST_TRIES; k++) { \
            nanosleep(&nap, NULL);                                       \
            info = (call);                                               \
        }                                                                \
        check_status(info, TrB_SUCCESS, #call, __FILE__, __LINE__);      \
    } while (0)

/* All requests of a thread: each adds one to the count by two temporaries. */
static void *add_ones(void *argument)
{
    Member *member = (Member *)argument;
    TrB_Pass *pass = member->pass;
    TrB_Vector count = member->count;
    for (size_t k = 0; k < EACH; k++) {
        TrB_Vector one, none;
        GOES_ON(TrB_Vector_new(pass, &one, TrB_UINT64, 1));
        GOES_ON(TrB_Vector_new(pass, &none, TrB_UINT64, 1));
        GOES_ON(TrB_Vector_setElement_UINT64(pass, one, 1, 0));
        GOES_ON(TrB_Vector_eWiseAdd(pass, count, TrB_NO_VECTOR, TrB_PLUS, TrB_FIRST, one, none, TrB_DEFAULT));
        GOES_ON(TrB_Vector_free(pass, one));
        GOES_ON(TrB_Vector_free(pass, none));
        member->given[2 * k] = one.id;
        member->given[2 * k + 1] = none.id;
    }
    return NULL;
}

/* Eight threads at once. The pass that is idle makes the count, sits in the first generation till the end, and then
 * reads it. Each number is given once, and none is left out. */
static void crowd(void)
{
    static Member members[CROWD];
    static bool is_given[GIVEN + 1];
    TrB_Pass passes[CROWD + 1] = {TRB_PASS_INIT}, *idle = &passes[CROWD];
    pthread_t threads[CROWD];
    TrB_Vector count;
    uint64_t total, generation;
    OK(TrB_chain_open(SHORT, passes, CROWD + 1));
    OK(TrB_Vector_new(idle, &count, TrB_UINT64, 1));
    HOLDS(count.id == 0);
    for (size_t t = 0; t < CROWD; t++) {
        members[t] = (Member){.pass = &passes[t], .count = count};
        HOLDS(pthread_create(&threads[t], NULL, add_ones, &members[t]) == 0);
    }
    for (size_t t = 0; t < CROWD; t++) {
        HOLDS(pthread_join(threads[t], NULL) == 0);
        for (size_t k = 0; k < 2 * EACH; k++) {
            uint32_t number = members[t].given[k];
            HOLDS(number > 0 && number <= GIVEN && !is_given[number]);
            is_given[number] = true;
        }
    }

    OK(TrB_chain_generation(idle, &generation));
    HOLDS(generation == 0);
    OK(TrB_Vector_extractElement_UINT64(idle, &total, count, 0));
    HOLDS(total == CROWD * EACH);
    OK(TrB_chain_generation(idle, &generation));
    HOLDS(generation >= 1000);
    for (size_t t = 0; t <= CROWD; t++) {
        TrB_free(&passes[t]);
    }
    printf("%d threads are given %d numbers, and count %" PRIu64 " requests\n", CROWD, GIVEN, total);
}

int main(void)
{
    TrB_Pass passes[WORKERS] = {TRB_PASS_INIT};
    TrB_Vector counts, squares;
    uint64_t total;
    OK(TrB_chain_open(ROOM, passes, WORKERS));
    OK(TrB_Vector_new(&passes[0], &counts, TrB_UINT64, SIZE));
    OK(TrB_Vector_new(&passes[0], &squares, TrB_UINT64, SIZE));
    serve(&(Worker){.pass = &passes[0], .counts = counts, .own = WORKERS, .times = FIRST});
    long before = resident();
    serve_all(passes, counts);
    HOLDS(resident() < before + MOST_GROWTH);

    OK(TrB_Vector_reduce_UINT64(&passes[0], &total, TrB_PLUS, counts));
    printf("%" PRIu64 " requests are counted\n", total);
    publish(&passes[0], counts, squares);
    OK(TrB_Vector_reduce_UINT64(&passes[1], &total, TrB_PLUS, squares));
    printf("their squares are %" PRIu64 "\n", total);
    end(passes, counts);
    for (size_t t = 0; t < WORKERS; t++) {
        TrB_free(&passes[t]);
    }
    crowd();
    return 0;
}

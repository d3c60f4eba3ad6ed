/* The memory that the library asks for: counted, and refused. For programs of one thread that are linked so, by which
 * malloc, calloc, realloc and free of the program and of the library lead here:
 *
 *     cc -std=c11 -O2 -Wl,--wrap=malloc,--wrap=calloc,--wrap=realloc,--wrap=free \
 *         -o scarce scarce.c libgrb_c.a liblibc_c.a -lpthread
 *
 * A step is what stands between hold_back and let_go. It is made again and again, each time with a supply that
 * refuses something else, until nothing is refused:
 *
 *     for (Way way = ONCE; way < WAYS; way++) {
 *         Supply supply = first_supply(way);
 *         do {
 *             ..                       // what comes before the step
 *             hold_back(supply);
 *             ..                       // the step
 *             let_go();
 *             ..                       // what is to hold then
 *         } while (go_on(&supply));
 *     }
 */
#ifndef MEMORY_H
#define MEMORY_H

#include "check.h"

#include <stdbool.h>
#include <stddef.h>
#include <stdint.h>
#include <string.h>

/* In which way a supply refuses. */
typedef enum {
    ONCE,  /* one request, from the first on in turn */
    ON,    /* one request, and all after it */
    BYTES, /* each request for which too few bytes are left: none are at first, then so many that one request fewer is
              refused, and so on; so all numbers of bytes are tried that differ for the step */
    WAYS
} Way;

static inline const char *name_of_way(Way way)
{
    return way == ONCE ? "once" : way == ON ? "on" : "bytes";
}

/* How much memory a step has: the request that is refused, from 1, or the bytes that are given out. */
typedef struct {
    Way way;
    size_t number;
} Supply;

#define NOTHING ((Supply){BYTES, 0})
#define AMPLE ((Supply){BYTES, SIZE_MAX})

void *__real_malloc(size_t size);
void *__real_realloc(void *block, size_t size);
void __real_free(void *block);
void *__wrap_malloc(size_t size);
void *__wrap_calloc(size_t count, size_t size);
void *__wrap_realloc(void *block, size_t size);
void __wrap_free(void *block);

/* In front of each block stands its size. */
enum { FRONT = 16 };

static struct {
    size_t held;  /* bytes that are not given back */
    size_t most;  /* the most of them since the step began */
    size_t base;  /* those before the step */
    size_t asked; /* how many requests the step made */
    size_t refused;
    size_t enough; /* the least supply of bytes by which one request more would be answered */
    bool is_step;
    Supply supply;
} memory = {.supply = {BYTES, SIZE_MAX}};

/* Called in the middle of each request, as another thread may come then, or NULL. Its own requests call nothing. */
static void (*meanwhile)(void);

static inline void come_between(void)
{
    void (*called)(void) = meanwhile;
    if (called != NULL) {
        meanwhile = NULL;
        called();
        meanwhile = called;
    }
}

/* Whether this many bytes are had in place of `old`. */
static bool is_had(size_t size, size_t old)
{
    bool is_refused = false;
    come_between();
    if (memory.is_step) {
        memory.asked++;
        size_t number = memory.supply.number, held = memory.held - old + size;
        size_t needed = held > memory.base ? held - memory.base : 0;
        switch (memory.supply.way) {
        case ONCE: is_refused = memory.asked == number; break;
        case ON: is_refused = memory.asked >= number; break;
        default: is_refused = needed > number; break;
        }
        if (is_refused) {
            memory.refused++;
            memory.enough = needed < memory.enough ? needed : memory.enough;
        }
    }
    if (!is_refused) {
        memory.held += size - old;
        memory.most = memory.held > memory.most ? memory.held : memory.most;
    }
    return !is_refused;
}

static size_t size_of(void *block)
{
    size_t size = 0;
    if (block != NULL) {
        memcpy(&size, (char *)block - FRONT, sizeof size);
    }
    return size;
}

static void *with_size(char *front, size_t size)
{
    HOLDS(front != NULL);
    memcpy(front, &size, sizeof size);
    return front + FRONT;
}

void *__wrap_malloc(size_t size)
{
    return is_had(size, 0) ? with_size(__real_malloc(FRONT + size), size) : NULL;
}

void *__wrap_calloc(size_t count, size_t size)
{
    void *block = size == 0 || count <= SIZE_MAX / size ? __wrap_malloc(count * size) : NULL;
    return block == NULL ? NULL : memset(block, 0, count * size);
}

void *__wrap_realloc(void *block, size_t size)
{
    char *front = block == NULL ? NULL : (char *)block - FRONT;
    return is_had(size, size_of(block)) ? with_size(__real_realloc(front, FRONT + size), size) : NULL;
}

void __wrap_free(void *block)
{
    if (block != NULL) {
        memory.held -= size_of(block);
        __real_free((char *)block - FRONT);
    }
}

/* A step begins. */
static inline void hold_back(Supply supply)
{
    memory.base = memory.most = memory.held;
    memory.asked = memory.refused = 0;
    memory.enough = SIZE_MAX;
    memory.supply = supply;
    memory.is_step = true;
}

/* It ends. From now on nothing is refused. */
static inline void let_go(void)
{
    memory.is_step = false;
}

/* The supply of the first trial. */
static inline Supply first_supply(Way way)
{
    return (Supply){way, way == BYTES ? 0 : 1};
}

/* The supply of the next trial, if something was refused in the last one. */
static inline bool go_on(Supply *supply)
{
    supply->number = supply->way == BYTES ? memory.enough : supply->number + 1;
    return memory.refused > 0;
}

#endif

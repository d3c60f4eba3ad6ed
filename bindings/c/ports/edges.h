/* The graph of both programs: edges drawn by a linear congruential generator, that of Knuth's MMIX. */
#ifndef EDGES_H
#define EDGES_H

#include <stddef.h>
#include <stdint.h>

enum { VERTICES = 1000, EDGES = 4000 };

/* Draws the edges, both ways, each with a length from 1 to 100. One may come twice. */
static inline void draw_edges(uint64_t *from, uint64_t *to, uint64_t *length)
{
    uint64_t state = 7;
    for (size_t k = 0; k < 2 * EDGES; k += 2) {
        uint64_t drawn[3];
        for (size_t part = 0; part < 3; part++) {
            state = state * 6364136223846793005u + 1442695040888963407u;
            drawn[part] = state >> 33;
        }
        from[k] = to[k + 1] = drawn[0] % VERTICES;
        to[k] = from[k + 1] = drawn[1] % VERTICES;
        length[k] = length[k + 1] = 1 + drawn[2] % 100;
    }
}

#endif

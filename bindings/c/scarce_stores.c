/* Successors and branches with ever more memory, from none on, each time of a store of its own, until nothing is
 * refused. Whatever is refused, the old store is as it was, and then goes on.
 *
 * fail.sh links it, as memory.h tells. Standard error tells how often each was refused.
 */
#include "check.h"
#include "memory.h"
#include "script.h"
#include "shown.h"
#include "trials.h"
#include "trowelheath.h"

#include <stdio.h>

/* The vector that is made first is freed. Nobody has read the changes: builds, with a set and a remove that wait, and a
 * product. */
static const char *const inherited[] = {
    "vector f uint64 4",
    "matrix A uint64 4 4",
    "vector u uint64 4",
    "matrix B uint64 4 4",
    "build A plus 0 1 2 1 2 3 2 0 9",
    "set A 0 2 4",
    "remove A 2 0",
    "build u plus 0 5 2 6",
    "set u 1 7",
    "remove u 0",
    "free f",
    "mxm B A A plus.times",
};

/* What the reads are answered, in the old store and in each successor. */
static const struct {
    const char *call;
    Answer answer;
} reads[] = {
    {"nvals A", {TrB_SUCCESS, 3, 0}},
    {"get A 0 2", {TrB_SUCCESS, 4, 0}},
    {"get A 2 0", {TrB_NO_VALUE, 0, 0}},
    {"total A plus", {TrB_SUCCESS, 9, 0}},
    {"nvals u", {TrB_SUCCESS, 2, 0}},
    {"get u 0", {TrB_NO_VALUE, 0, 0}},
    {"get u 1", {TrB_SUCCESS, 7, 0}},
    {"total u plus", {TrB_SUCCESS, 13, 0}},
    {"nvals B", {TrB_SUCCESS, 1, 0}},
    {"get B 0 2", {TrB_SUCCESS, 6, 0}},
    {"size f", {TrB_UNINITIALIZED_OBJECT, 0, 0}},
};

enum { INHERITED = sizeof inherited / sizeof inherited[0], READS = sizeof reads / sizeof reads[0], NEXT_ROOM = 16 };

static void expect_reads(TrB_Pass *pass, Names *names)
{
    for (size_t k = 0; k < READS; k++) {
        Answer answer = make_call(pass, names, reads[k].call);
        HOLDS(is_same(answer, reads[k].answer));
    }
}

/* Opens a successor, or a branch of all objects, the last of each sort first; one that is made answers the reads. The
 * pass then shows what it did before. Whether it was refused. */
static bool is_refused_next(TrB_Pass *pass, const Names *names, bool is_branch, Supply supply)
{
    const TrB_Matrix matrices[] = {{1}, {0}};
    const TrB_Vector vectors[] = {{1}, {0}};
    TrB_Pass next[2] = {TRB_PASS_INIT};
    Names there = *names;
    uint64_t needed = 77;
    Shown before = shown(pass);
    hold_back(supply);
    TrB_Info info = is_branch ? TrB_branch(pass, &needed, matrices, 2, vectors, 2, NEXT_ROOM, next, 2)
                              : TrB_succeed(pass, &needed, NEXT_ROOM, next, 2);
    let_go();
    Shown after = shown(pass);
    HOLDS(is_same_shown(&after, &before) && needed == 77);
    if (info == TrB_OUT_OF_MEMORY) {
        HOLDS(!next[0].is_open && !next[1].is_open);
        return true;
    }
    HOLDS(info == TrB_SUCCESS);
    if (is_branch) {
        there.of['f'].number = there.of['A'].number = 1;
        there.of['u'].number = there.of['B'].number = 0;
    }
    expect_reads(&next[1], &there);
    free_both(next);
    return false;
}

/* The same of a store that then answers the reads, and goes on with ample memory. Two passes hold more than 100 bytes
 * for each call that there is room for. */
static bool refused_next(bool is_branch, Supply supply)
{
    TrB_Pass passes[2] = {TRB_PASS_INIT}, *p = &passes[0];
    Names names = {0};
    OK(TrB_open(NEXT_ROOM, passes, 2));
    make_calls(p, &names, inherited, INHERITED);
    bool is_refused = is_refused_next(p, &names, is_branch, supply);
    size_t refused = memory.refused, enough = memory.enough;
    expect_reads(p, &names);
    HOLDS(!is_refused_next(p, &names, is_branch, AMPLE));
    HOLDS(memory.most - memory.base > 2 * NEXT_ROOM * 100);
    memory.refused = refused;
    memory.enough = enough;
    free_both(passes);
    return is_refused;
}

static bool refused_successor(Supply supply)
{
    return refused_next(false, supply);
}

static bool refused_branch(Supply supply)
{
    return refused_next(true, supply);
}

int main(void)
{
    take_numbers();
    sweep("a successor is refused in turn, and leaves the store as it was", refused_successor);
    sweep("a branch is refused in turn, and leaves the store as it was", refused_branch);
    return 0;
}

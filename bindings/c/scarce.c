/* Calls, waits and meetings with little memory. What takes no memory is answered, and so is each other reason to refuse
 * a call; a read makes no large vector that it does not need; and whatever is refused to what passes leave to each
 * other or prepare, no answer is another one.
 *
 * fail.sh links it, as memory.h tells. Standard error tells how often each step was refused.
 */
#include "check.h"
#include "memory.h"
#include "script.h"
#include "shown.h"
#include "trials.h"
#include "trowelheath.h"

#include <stdio.h>

enum { MOST_LINES = 24 };

/* ---- No memory ---------------------------------------------------------------------------------- */

/* Calls that are answered so while all memory is refused, and then so with ample memory. */
typedef struct {
    const char *name;
    uint32_t room;
    const char *before[MOST_LINES], *calls[MOST_LINES];
    Answer starved[MOST_LINES], ample[MOST_LINES];
    uint32_t settled; /* in the end */
} Row;

static const Row rows[] = {
    {
        .name = "a refused set is not entered",
        .room = 8,
        .before = {"vector v uint64 4"},
        .calls = {"set v 1 5"},
        .starved = {{TrB_OUT_OF_MEMORY, 0, 0}},
        .ample = {{TrB_SUCCESS, 0, 0}},
        .settled = 0,
    },
    {
        .name = "what is settled is read without memory",
        .room = 128,
        .before = {"vector v uint64 4", "set v 0 5", "wait v materialize"},
        .calls = {"get v 0", "nvals v", "total v plus"},
        .starved = {{TrB_SUCCESS, 5, 0}, {TrB_SUCCESS, 1, 0}, {TrB_SUCCESS, 5, 0}},
        .ample = {{TrB_SUCCESS, 5, 0}, {TrB_SUCCESS, 1, 0}, {TrB_SUCCESS, 5, 0}},
        .settled = 2,
    },
    {
        /* A changed entry, a new one and one that was removed are read where they wait. */
        .name = "a total over changes takes no memory",
        .room = 128,
        .before = {"vector v uint64 4", "set v 0 5", "set v 2 7", "wait v materialize", "set v 1 6", "set v 0 4",
                   "remove v 2", "get v 1"},
        .calls = {"total v plus"},
        .starved = {{TrB_SUCCESS, 10, 0}},
        .ample = {{TrB_SUCCESS, 10, 0}},
        .settled = 3,
    },
    {
        /* The first wait leaves its store, the second has nothing to evaluate, and nothing more is left so soon. */
        .name = "a wait that leaves nothing takes no memory",
        .room = 128,
        .before = {"vector v uint64 4", "set v 0 5", "wait v materialize", "set v 1 6", "wait v complete"},
        .calls = {"wait v materialize"},
        .starved = {{TrB_SUCCESS, 0, 0}},
        .ample = {{TrB_SUCCESS, 0, 0}},
        .settled = 3,
    },
    {
        .name = "other refusals come before that of memory, in a full store",
        .room = 2,
        .before = {"vector v uint64 4", "set v 0 5"},
        .calls = {"matrix A bool 0 1", "set v 4 5", "set v 3 5"},
        .starved = {{TrB_INVALID_VALUE, 0, 0}, {TrB_INVALID_INDEX, 0, 0}, {TrB_ORDER_FULL, 0, 0}},
        .ample = {{TrB_INVALID_VALUE, 0, 0}, {TrB_INVALID_INDEX, 0, 0}, {TrB_ORDER_FULL, 0, 0}},
        .settled = 0,
    },
    {
        .name = "other refusals come before that of memory, where there is room",
        .room = 3,
        .before = {"vector v uint64 4", "set v 0 5"},
        .calls = {"matrix A bool 0 1", "set v 4 5", "set v 3 5"},
        .starved = {{TrB_INVALID_VALUE, 0, 0}, {TrB_INVALID_INDEX, 0, 0}, {TrB_OUT_OF_MEMORY, 0, 0}},
        .ample = {{TrB_INVALID_VALUE, 0, 0}, {TrB_INVALID_INDEX, 0, 0}, {TrB_SUCCESS, 0, 0}},
        .settled = 0,
    },
};

enum { ROWS = sizeof rows / sizeof rows[0] };

/* The number of lines up to the first that is NULL. */
static size_t count_of(const char *const *lines)
{
    size_t count = 0;
    while (count < MOST_LINES && lines[count] != NULL) {
        count++;
    }
    return count;
}

/* Makes the calls with this supply for each, which are answered so. One that is refused memory leaves all else that the
 * pass shows; where there is none, what is not refused it asks for none. */
static void expect_each(TrB_Pass *pass, Names *names, const char *const *calls, const Answer *wanted, bool is_starved)
{
    for (size_t k = 0; k < count_of(calls); k++) {
        Shown before = shown(pass);
        hold_back(is_starved ? NOTHING : AMPLE);
        Answer answer = make_call(pass, names, calls[k]);
        let_go();
        HOLDS(is_same(answer, wanted[k]));
        uint32_t known = before.facts.known + (!is_read(calls[k]) && answer.info == TrB_SUCCESS);
        Shown after = shown(pass);
        HOLDS(after.facts.words == known && after.facts.known == known);
        if (answer.info == TrB_OUT_OF_MEMORY) {
            before.vectors[vector_of(names, name_in(calls[k])).id] = TrB_OUT_OF_MEMORY;
            HOLDS(is_same_shown(&after, &before));
        }
        HOLDS(!is_starved || (memory.asked > 0) == (answer.info == TrB_OUT_OF_MEMORY));
    }
}

static void expect_rows(void)
{
    for (size_t k = 0; k < ROWS; k++) {
        const Row *row = &rows[k];
        TrB_Pass passes[2] = {TRB_PASS_INIT};
        Names names = {0};
        checked_row = row->name;
        OK(TrB_open(row->room, passes, 2));
        make_calls(&passes[0], &names, row->before, count_of(row->before));
        expect_each(&passes[0], &names, row->calls, row->starved, true);
        expect_each(&passes[0], &names, row->calls, row->ample, false);
        HOLDS(facts_of(&passes[0]).settled == row->settled);
        free_both(passes);
        printf("%s\n", row->name);
    }
    checked_row = NULL;
}

/* A meeting, and all that is read of a pass and of shapes. */
static void meet_without_memory(void)
{
    static const char *const lines[] = {"vector v uint64 4", "matrix A uint64 2 3"};
    TrB_Pass passes[2] = {TRB_PASS_INIT}, *q = &passes[1];
    Names names = {0};
    TrB_Index size, nrows, ncols;
    TrB_Info last = TrB_PANIC;
    OK(TrB_open(8, passes, 2));
    make_calls(&passes[0], &names, lines, 2);
    hold_back(NOTHING);
    OK(TrB_meet(q, &passes[0]));
    TrB_Facts facts = facts_of(q);
    HOLDS(facts.number == 1 && facts.words == 2 && facts.known == 2);
    HOLDS(facts.room_left == 6 && facts.steps == 2 && facts.settled == 0);
    OK(TrB_Vector_size(q, &size, (TrB_Vector){0}));
    HOLDS(size == 4);
    OK(TrB_Matrix_size(q, &nrows, &ncols, (TrB_Matrix){0}));
    HOLDS(nrows == 2 && ncols == 3);
    OK(TrB_Vector_error(q, &last, (TrB_Vector){0}));
    HOLDS(last == TrB_SUCCESS);
    let_go();
    HOLDS(memory.asked == 0);
    free_both(passes);
    printf("a meeting and reads of shapes take no memory\n");
}

/* ---- What passes leave to each other ------------------------------------------------------------ */

/* Opens a store in which a vector of one entry is made. */
static TrB_Vector open_small(TrB_Pass *passes)
{
    TrB_Vector v;
    OK(TrB_open(128, passes, 2));
    OK(TrB_Vector_new(&passes[0], &v, TrB_UINT64, 4));
    OK(TrB_Vector_setElement_UINT64(&passes[0], v, 5, 0));
    return v;
}

/* A wait, and then both passes go on. */
static bool refused_wait(Supply supply)
{
    TrB_Pass passes[2] = {TRB_PASS_INIT}, *p = &passes[0], *q = &passes[1];
    TrB_Vector v = open_small(passes);
    hold_back(supply);
    TrB_Info info = TrB_Vector_wait(p, v, TrB_MATERIALIZE);
    let_go();
    bool is_refused = info == TrB_OUT_OF_MEMORY;
    HOLDS(is_refused || info == TrB_SUCCESS);
    HOLDS(facts_of(p).settled == (is_refused ? 0 : 2));
    OK(TrB_Vector_setElement_UINT64(q, v, 6, 0));
    OK(TrB_Vector_setElement_UINT64(q, v, 7, 0));
    OK(TrB_meet(p, q));
    reads_vector(p, v, 0, 7);
    HOLDS(facts_of(p).known == 4);
    free_both(passes);
    return is_refused;
}

/* A wait of the one, and a read of the other, which has nothing to make where the wait was done. */
static bool unfinished_wait(Supply supply)
{
    TrB_Pass passes[2] = {TRB_PASS_INIT};
    TrB_Vector v = open_small(passes);
    hold_back(supply);
    TrB_Info info = TrB_Vector_wait(&passes[0], v, TrB_MATERIALIZE);
    let_go();
    HOLDS(info == TrB_SUCCESS || info == TrB_OUT_OF_MEMORY);
    OK(TrB_meet(&passes[1], &passes[0]));
    uint32_t made = reads_vector(&passes[1], v, 0, 5);
    HOLDS(info == TrB_OUT_OF_MEMORY || made == 0);
    free_both(passes);
    return info == TrB_OUT_OF_MEMORY;
}

/* The first pass has waited for all objects, and the other has evaluated the same calls. Then it waits. */
static void wait_again(void)
{
    TrB_Pass passes[2] = {TRB_PASS_INIT}, *p = &passes[0], *q = &passes[1];
    TrB_Vector v = open_small(passes);
    uint64_t total;
    OK(TrB_Vector_wait(p, v, TrB_MATERIALIZE));
    HOLDS(facts_of(p).settled == 2);
    OK(TrB_meet(q, p));
    OK(TrB_Vector_reduce_UINT64(q, &total, TrB_PLUS, v));
    HOLDS(total == 5 && facts_of(q).settled == 0);
    hold_back(NOTHING);
    OK(TrB_Vector_wait(q, v, TrB_MATERIALIZE));
    let_go();
    HOLDS(memory.asked == 0 && facts_of(q).settled == 2);
    free_both(passes);
    printf("a wait after one of as many calls takes no memory\n");
}

/* How often a vector is added to itself. */
enum { SUMS = 20 };

/* One pass prepares calls that are dear to a pass that has made none of them, and the other adopts it and reads.
 * Whether it had to make anything. */
static bool unfinished_adoption(Supply supply)
{
    static const char *const made[] = {"vector v uint64 8", "build v plus 0 1 1 1 2 1 3 1 4 1 5 1 6 1 7 1"};
    static const char *const sum = "ewiseadd v v v plus";
    TrB_Pass passes[2] = {TRB_PASS_INIT}, *p = &passes[0], *q = &passes[1];
    TrB_Vector v = {0};
    Names names = {0};
    uint32_t evaluated;
    OK(TrB_open(32, passes, 2));
    make_calls(p, &names, made, 2);
    for (int k = 0; k < SUMS; k++) {
        make_calls(p, &names, &sum, 1);
    }
    hold_back(supply);
    OK(TrB_prepare(p, &evaluated));
    OK(TrB_adopt(q, p));
    let_go();
    uint32_t left = reads_vector(q, v, 7, 1 << SUMS);
    reads_vector(p, v, 0, 1 << SUMS);
    HOLDS(facts_of(q).known == 2 + SUMS);
    HOLDS(memory.refused == 0 ? evaluated == 2 + SUMS : evaluated <= 2 + SUMS);
    free_both(passes);
    return left > 0;
}

/* One pass reads the sum of so many products of a column and a row of ones. Then the other does. Whether it had to make
 * anything. A product of n times n entries counts 16 * n * n + 64, and together they are dear from 4096 * 64 on. */
static bool unshared_work(Supply supply, TrB_Index side, uint32_t products)
{
    TrB_Pass passes[2] = {TRB_PASS_INIT}, *p = &passes[0], *q = &passes[1];
    TrB_Matrix c;
    uint64_t x;
    OK(TrB_open(96, passes, 2));
    TrB_Matrix a = full_of_ones(p, side, 1), b = full_of_ones(p, 1, side);
    OK(TrB_Matrix_new(p, &c, TrB_UINT64, side, side));
    for (uint32_t k = 0; k < products; k++) {
        OK(TrB_mxm(p, c, TrB_NO_MATRIX, TrB_PLUS, TrB_PLUS_TIMES, a, b, TrB_DEFAULT));
    }
    hold_back(supply);
    TrB_Info first = TrB_Matrix_extractElement_UINT64(p, &x, c, 0, 0);
    let_go();
    HOLDS(first == TrB_OUT_OF_MEMORY || (first == TrB_SUCCESS && x == products));
    uint32_t made = reads_matrix(q, c, side - 1, side - 1, products);
    reads_matrix(p, c, 0, 0, products);
    HOLDS(facts_of(q).known == 5 + products);
    free_both(passes);
    return made > 0;
}

static bool unshared_products(Supply supply)
{
    return unshared_work(supply, 14, 84);
}

static bool unshared_large_products(Supply supply)
{
    return unshared_work(supply, 64, 4);
}

/* ---- Reads that need not make a large vector ---------------------------------------------------- */

/* Entries of the large vector, more than LITTLE holds, and how often the small one is added to it. */
enum { MANY = 6000, ADDED = 400 };

/* What the second pass reads: the small vector, after a set of its own; the large one; or the large one, after the
 * first pass has waited for all objects. */
typedef enum { SMALL, LARGE, SETTLED } Scene;

/* With little memory the second pass is answered so, and with ample memory it reads the value. */
static void read_scene(const char *name, Scene scene, TrB_Info info, uint64_t value)
{
    static TrB_Index indices[MANY];
    static uint64_t ones[MANY];
    TrB_Pass passes[2] = {TRB_PASS_INIT}, *p = &passes[0], *q = &passes[1];
    TrB_Vector u, v;
    uint64_t x = 0;
    checked_row = name;
    for (size_t k = 0; k < MANY; k++) {
        indices[k] = k;
        ones[k] = 1;
    }
    OK(TrB_open(411, passes, 2));
    OK(TrB_Vector_new(p, &u, TrB_UINT64, MANY));
    OK(TrB_Vector_new(p, &v, TrB_UINT64, MANY));
    OK(TrB_Vector_setElement_UINT64(p, u, 1, 0));
    OK(TrB_Vector_build_UINT64(p, v, indices, ones, MANY, TrB_PLUS));
    for (int k = 0; k < ADDED; k++) {
        OK(TrB_Vector_eWiseAdd(p, v, TrB_NO_VECTOR, TrB_NO_ACCUM, TrB_PLUS, v, u, TrB_DEFAULT));
    }
    if (scene == SETTLED) {
        OK(TrB_Vector_wait(p, u, TrB_MATERIALIZE));
        HOLDS(facts_of(p).settled == 4 + ADDED);
    }
    OK(TrB_meet(q, p));
    if (scene == SMALL) {
        OK(TrB_Vector_setElement_UINT64(q, u, 5, 1));
    }
    TrB_Vector read = scene == SMALL ? u : v;
    hold_back(SOME);
    ANSWERS(TrB_Vector_extractElement_UINT64(q, &x, read, 0), info);
    let_go();
    HOLDS(info != TrB_SUCCESS || x == value);
    reads_vector(q, read, 0, value);
    free_both(passes);
    checked_row = NULL;
    printf("%s\n", name);
}

int main(void)
{
    take_numbers();
    expect_rows();
    meet_without_memory();
    sweep("a wait is refused in turn, and leaves all other answers", refused_wait);
    sweep("a wait is refused in turn, and one that is done has left its store", unfinished_wait);
    wait_again();
    sweep("what is prepared is refused in turn, and leaves all answers", unfinished_adoption);
    sweep_from(BYTES, "what dear work of many calls leaves is refused, and changes no answer", unshared_products);
    sweep("what dear work leaves is refused in turn, and changes no answer", unshared_large_products);
    read_scene("a read makes no large vector beside its own", SMALL, TrB_SUCCESS, 1);
    read_scene("a read of a large vector is refused", LARGE, TrB_OUT_OF_MEMORY, 1 + ADDED);
    read_scene("a read makes no large vector that a wait has left", SETTLED, TrB_SUCCESS, 1 + ADDED);
    return 0;
}

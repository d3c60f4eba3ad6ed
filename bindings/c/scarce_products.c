/* Results that are dear, with little memory. What a call leaves is let go of once no answer needs it; who does not ask
 * for a product that is too large is not refused; and whatever is refused to what passes leave to each other, prepare
 * or make by blocks, no answer is another one.
 *
 * fail.sh links it, as memory.h tells. Standard error tells how often each step was refused.
 */
#include "check.h"
#include "memory.h"
#include "script.h"
#include "shown.h"
#include "trials.h"
#include "trowelheath.h"

#include <stdio.h>

/* ---- Dear results ------------------------------------------------------------------------------- */

/* Products that are added to each of two results, and all calls: four that make objects, two builds, and these. */
enum { EDGE = 8, ADDS = 4, CALLS = 4 + 2 + 2 * ADDS };

/* Whether the read is refused memory; else it has the sum of the products, one at each place. */
static bool is_refused_read(TrB_Pass *pass, TrB_Matrix a)
{
    uint64_t x;
    TrB_Info info = TrB_Matrix_extractElement_UINT64(pass, &x, a, EDGE - 1, EDGE - 1);
    HOLDS(info == TrB_OUT_OF_MEMORY || (info == TrB_SUCCESS && x == ADDS));
    return info == TrB_OUT_OF_MEMORY;
}

/* One pass reads a result, prepares the other, reads it, is adopted and lets go, and both read again. Whether a read
 * was refused. Where nothing is, all calls were evaluated when it had prepared. */
static bool are_refused(TrB_Pass *p, TrB_Pass *q, TrB_Matrix c, TrB_Matrix d)
{
    uint32_t evaluated;
    bool is_refused = is_refused_read(p, c);
    OK(TrB_prepare(p, &evaluated));
    HOLDS(memory.is_step && memory.refused > 0 ? evaluated <= CALLS : evaluated == CALLS);
    is_refused |= is_refused_read(p, d);
    OK(TrB_adopt(q, p));
    OK(TrB_release(p));
    is_refused |= is_refused_read(q, d);
    is_refused |= is_refused_read(p, c);
    return is_refused;
}

/* The same with so much memory, and then with ample memory. */
static bool refused_reads(Supply supply)
{
    TrB_Pass passes[2] = {TRB_PASS_INIT}, *p = &passes[0], *q = &passes[1];
    TrB_Matrix c, d;
    OK(TrB_open(CALLS, passes, 2));
    TrB_Matrix a = full_of_ones(p, EDGE, 1), b = full_of_ones(p, 1, EDGE);
    OK(TrB_Matrix_new(p, &c, TrB_UINT64, EDGE, EDGE));
    OK(TrB_Matrix_new(p, &d, TrB_UINT64, EDGE, EDGE));
    for (int k = 0; k < ADDS; k++) {
        OK(TrB_mxm(p, c, TrB_NO_MATRIX, TrB_PLUS, TrB_PLUS_TIMES, a, b, TrB_DEFAULT));
        OK(TrB_mxm(p, d, TrB_NO_MATRIX, TrB_PLUS, TrB_PLUS_TIMES, a, b, TrB_DEFAULT));
    }
    hold_back(supply);
    bool is_refused = are_refused(p, q, c, d);
    let_go();
    HOLDS(!are_refused(p, q, c, d));
    HOLDS(facts_of(p).known == CALLS && facts_of(q).known == CALLS);
    free_both(passes);
    return is_refused;
}

/* Rows and columns of a matrix of ones whose rows are summed, and turns of a change and a read. */
enum { TALL = 8, WIDE = 128, TURNS = 100 };

/* Turns of a change of the matrix, or of none, and of the sums, which are read in every so many of them; with as much
 * memory as two copies of the matrix take. */
static void take_turns(bool is_changed, unsigned every)
{
    TrB_Pass passes[2] = {TRB_PASS_INIT}, *p = &passes[0];
    TrB_Vector w;
    OK(TrB_open(256, passes, 2));
    TrB_Matrix a = full_of_ones(p, TALL, WIDE);
    OK(TrB_Vector_new(p, &w, TrB_UINT64, TALL));
    OK(TrB_Matrix_reduce(p, w, TrB_NO_VECTOR, TrB_NO_ACCUM, TrB_PLUS, a, TrB_DEFAULT));
    reads_vector(p, w, TALL - 1, WIDE);
    hold_back(SOME);
    for (unsigned k = 0; k < TURNS; k++) {
        if (is_changed) {
            OK(TrB_Matrix_setElement_UINT64(p, a, 1, k % TALL, k % WIDE));
        }
        OK(TrB_Matrix_reduce(p, w, TrB_NO_VECTOR, TrB_NO_ACCUM, TrB_PLUS, a, TrB_DEFAULT));
        if (k % every == 0) {
            reads_vector(p, w, TALL - 1, WIDE);
        }
    }
    reads_vector(p, w, TALL - 1, WIDE);
    let_go();
    HOLDS(memory.refused == 0);
    free_both(passes);
}

static void take_many_turns(void)
{
    static const unsigned every[] = {1, 10, 1000};
    for (size_t k = 0; k < 3; k++) {
        take_turns(true, every[k]);
        take_turns(false, every[k]);
    }
    printf("%d turns of a change and a read take no more memory than a few\n", TURNS);
}

/* ---- A product that is too large to make --------------------------------------------------------- */

enum { BROAD = 400 };

/* What a pass asks while the product is there, and once it was freed, and what it is answered with little memory for
 * each. */
static const struct {
    const char *call;
    Answer answer;
} asked[] = {
    {"ewiseadd w u v plus", {TrB_SUCCESS, 0, 0}},
    {"get w 3", {TrB_SUCCESS, 11, 0}},
    {"total w plus", {TrB_SUCCESS, 11, 0}},
    {"nvals A", {TrB_SUCCESS, BROAD, 0}},
    {"get C 0 0", {TrB_OUT_OF_MEMORY, 0, 0}},
    {"wait u materialize", {TrB_OUT_OF_MEMORY, 0, 0}},
    {"build e plus 1 7", {TrB_SUCCESS, 0, 0}},
    {"get e 1", {TrB_SUCCESS, 7, 0}},
    {"free C", {TrB_SUCCESS, 0, 0}},
    {"wait u materialize", {TrB_SUCCESS, 0, 0}},
    {"build E plus 1 1 7", {TrB_SUCCESS, 0, 0}},
    {"get E 1 1", {TrB_SUCCESS, 7, 0}},
};

/* No successor is made of a store that has the product, and a branch of all other objects is. */
static void go_apart(TrB_Pass *pass, const Names *names)
{
    TrB_Matrix matrices[] = {matrix_of(names, "A"), matrix_of(names, "B"), matrix_of(names, "E")};
    TrB_Vector vectors[] = {vector_of(names, "u"), vector_of(names, "v"), vector_of(names, "w"), vector_of(names, "e")};
    TrB_Pass next = TRB_PASS_INIT;
    TrB_Index nvals;
    uint64_t needed = 77;
    Shown before = shown(pass);
    hold_back(SOME);
    ANSWERS(TrB_succeed(pass, &needed, 16, &next, 1), TrB_OUT_OF_MEMORY);
    let_go();
    Shown after = shown(pass);
    HOLDS(is_same_shown(&after, &before) && needed == 77 && !next.is_open);
    hold_back(SOME);
    OK(TrB_branch(pass, &needed, matrices, 3, vectors, 4, 16, &next, 1));
    OK(TrB_Matrix_nvals(&next, &nvals, (TrB_Matrix){1}));
    HOLDS(nvals == BROAD);
    reads_vector(&next, (TrB_Vector){2}, 3, 11);
    let_go();
    TrB_free(&next);
}

/* Only those are refused memory who ask for the product, and nobody once it was freed. The wait that is done then has
 * left what it made of 16 calls. So the other pass, which has made none of the 17, makes the last alone. */
static void multiply_too_much(void)
{
    static const char *const objects[] = {"vector u uint64 8", "vector v uint64 8", "vector w uint64 8",
                                          "vector e uint64 8", "matrix E uint64 8 8"};
    static const char *const then[] = {"set u 3 5", "set v 3 6", "mxm C A B plus.times"};
    TrB_Pass passes[2] = {TRB_PASS_INIT}, *p = &passes[0], *q = &passes[1];
    Names names = {0};
    TrB_Matrix a, b, c;
    OK(TrB_open(64, passes, 2));
    make_calls(p, &names, objects, 5);
    OK(TrB_Matrix_new(p, &c, TrB_UINT64, BROAD, BROAD));
    a = full_of_ones(p, BROAD, 1);
    b = full_of_ones(p, 1, BROAD);
    names.of['A'] = (Object){a.id, TrB_UINT64};
    names.of['B'] = (Object){b.id, TrB_UINT64};
    names.of['C'] = (Object){c.id, TrB_UINT64};
    make_calls(p, &names, then, 3);
    for (size_t k = 0; k < sizeof asked / sizeof asked[0]; k++) {
        checked_row = asked[k].call;
        hold_back(SOME);
        Answer answer = make_call(p, &names, asked[k].call);
        let_go();
        HOLDS(is_same(answer, asked[k].answer));
        if (answer.info == TrB_OUT_OF_MEMORY) {
            go_apart(p, &names);
        }
    }
    checked_row = NULL;
    HOLDS(facts_of(p).settled == 16 && facts_of(p).known == 17);
    hold_back(SOME);
    OK(TrB_Vector_wait(q, (TrB_Vector){0}, TrB_MATERIALIZE));
    let_go();
    HOLDS(facts_of(q).made == 1 && facts_of(q).settled == 17);
    free_both(passes);
    printf("a product that is too large to make refuses only who asks for it\n");
}

/* ---- Blocks of a dear product ------------------------------------------------------------------- */

/* Rows of the first matrix and columns of the second, and the columns of the first and rows of the second. They have
 * 36 * 1024 * 36 = 1,327,104 products of entries: more than 2^20, and 18 for each of the 2 * 36,864 entries. */
enum { NARROW = 36, INNER = 1024, BLOCKS_ROOM = 8192 };

/* A matrix in which all is true, of which the entries are counted. */
static TrB_Matrix full_of_truths(TrB_Pass *pass, TrB_Index nrows, TrB_Index ncols)
{
    static TrB_Index is[NARROW * INNER], js[NARROW * INNER];
    static bool truths[NARROW * INNER];
    TrB_Matrix a;
    TrB_Index nvals = 0;
    for (TrB_Index i = 0; i < nrows; i++) {
        for (TrB_Index j = 0; j < ncols; j++, nvals++) {
            is[nvals] = i;
            js[nvals] = j;
            truths[nvals] = true;
        }
    }
    OK(TrB_Matrix_new(pass, &a, TrB_BOOL, nrows, ncols));
    OK(TrB_Matrix_build_BOOL(pass, a, is, js, truths, nvals, TrB_LOR));
    OK(TrB_Matrix_nvals(pass, &nvals, a));
    HOLDS(nvals == nrows * ncols);
    return a;
}

/* The two matrices, and their product. */
typedef struct {
    TrB_Matrix a, b, c;
} Dear;

static uint64_t blocks_of(TrB_Pass *pass)
{
    uint64_t count;
    OK(TrB_blocks(pass, &count));
    return count;
}

static void call_for_product(TrB_Pass *pass, const Dear *dear)
{
    OK(TrB_mxm(pass, dear->c, TrB_NO_MATRIX, TrB_NO_ACCUM, TrB_LOR_LAND, dear->a, dear->b, TrB_DEFAULT));
}

/* All is true in the product: it is full, and no entry is false. */
static void expect_product(TrB_Pass *pass, const Dear *dear)
{
    TrB_Index nvals;
    bool least;
    OK(TrB_Matrix_nvals(pass, &nvals, dear->c));
    OK(TrB_Matrix_reduce_BOOL(pass, &least, TrB_LAND, dear->c));
    HOLDS(nvals == NARROW * NARROW && least);
}

/* How a read of the product went: it was refused; it was answered, and fewer blocks were made than with ample memory;
 * or it was answered by blocks. */
typedef enum { WAS_REFUSED, ALONE, BY_BLOCKS } Went;

/* Calls for the product, and reads it with this much memory; where it is refused, all is as before, and the next read
 * is answered. A product of which a block was made is not made again: once one request is refused, no other is made. With
 * so many bytes a larger one may be refused before, of what may be left out, as a look at what others left. */
static Went try_product(TrB_Pass *pass, const Dear *dear, uint64_t all, Supply supply)
{
    TrB_Index nvals;
    call_for_product(pass, dear);
    Shown before = shown(pass);
    uint64_t blocks = blocks_of(pass);
    hold_back(supply);
    TrB_Info info = TrB_Matrix_nvals(pass, &nvals, dear->c);
    let_go();
    uint64_t made = blocks_of(pass) - blocks;
    if (info == TrB_OUT_OF_MEMORY) {
        Shown after = shown(pass);
        before.matrices[dear->c.id] = TrB_OUT_OF_MEMORY;
        HOLDS(is_same_shown(&after, &before));
        HOLDS(made == 0 || made == all || supply.way == BYTES || memory.refused == 1);
        expect_product(pass, dear);
        return WAS_REFUSED;
    }
    HOLDS(info == TrB_SUCCESS && nvals == NARROW * NARROW);
    expect_product(pass, dear);
    return made < all ? ALONE : BY_BLOCKS;
}

/* Another pass has nothing to help with, and takes no memory for that, nor to tell how many blocks were made. */
static void help_without_memory(TrB_Pass *pass, uint64_t all)
{
    uint32_t made = 77;
    Shown before = shown(pass);
    hold_back(NOTHING);
    OK(TrB_help(pass, &made));
    HOLDS(blocks_of(pass) == all);
    let_go();
    Shown after = shown(pass);
    HOLDS(made == 0 && memory.asked == 0 && is_same_shown(&after, &before));
}

/* What a visitor, another pass, asks for in the middle of a read of the product: it is refused all memory from some
 * request on. Then it helps, with ample memory. */
typedef enum { NEITHER, HELP, READ } First;

static struct {
    TrB_Pass *pass;
    TrB_Matrix c;
    size_t at;       /* the request of the read in the middle of which it comes */
    First first;
    size_t number;   /* the first of its own requests that is refused */
    bool is_refused; /* its read was */
    uint32_t made;   /* how many blocks it made in all */
} visitor;

static void visit(void)
{
    TrB_Index nvals;
    uint32_t made;
    if (!memory.is_step || memory.asked + 1 != visitor.at) {
        return;
    }
    memory.supply = (Supply){ON, memory.asked + visitor.number};
    if (visitor.first == HELP) {
        OK(TrB_help(visitor.pass, &visitor.made));
    } else if (visitor.first == READ) {
        TrB_Info info = TrB_Matrix_nvals(visitor.pass, &nvals, visitor.c);
        visitor.is_refused = info == TrB_OUT_OF_MEMORY;
        HOLDS(visitor.is_refused || (info == TrB_SUCCESS && nvals == NARROW * NARROW));
    }
    memory.supply = AMPLE;
    OK(TrB_help(visitor.pass, &made));
    visitor.made += made;
}

/* One pass reads the product, and the other visits it. How many requests the read makes without the visitor's. */
static size_t read_visited(TrB_Pass *passes, const Dear *dear, size_t at, First first, size_t number)
{
    TrB_Index nvals;
    call_for_product(&passes[0], dear);
    visitor.pass = &passes[1];
    visitor.c = dear->c;
    visitor.at = at;
    visitor.first = first;
    visitor.number = number;
    visitor.is_refused = false;
    visitor.made = 0;
    meanwhile = visit;
    hold_back(AMPLE);
    OK(TrB_Matrix_nvals(&passes[0], &nvals, dear->c));
    let_go();
    meanwhile = NULL;
    expect_product(&passes[0], dear);
    expect_product(&passes[1], dear);
    return memory.asked;
}

/* A block whose maker was refused memory is made by the next who helps: so all are made but the one that is claimed by
 * the reader. And who is refused memory in a read of the product gives it up: then nobody helps with it any more, and
 * the other reader makes the rest of it alone. */
static void help_in_between(TrB_Pass *passes, const Dear *dear, uint64_t all)
{
    size_t requests = read_visited(passes, dear, 0, NEITHER, 0), first = 0, last = 0;
    for (size_t at = 1; at <= requests; at++) {
        read_visited(passes, dear, at, HELP, 1);
        if (visitor.made == all - 1) {
            first = first == 0 ? at : first;
            last = at;
        }
    }
    HOLDS(first > 0);
    size_t number = 0;
    unsigned given_up = 0;
    do {
        number++;
        read_visited(passes, dear, (first + last) / 2, READ, number);
        HOLDS(visitor.made == 0 || visitor.made == all - 1);
        given_up += visitor.is_refused && visitor.made == 0;
    } while (visitor.is_refused);
    HOLDS(given_up > 0);
}

static void multiply_by_blocks(void)
{
    char row[64];
    TrB_Pass passes[2] = {TRB_PASS_INIT}, *p = &passes[0];
    Dear dear;
    size_t before = memory.held;
    OK(TrB_open(BLOCKS_ROOM, passes, 2));
    dear.a = full_of_truths(p, NARROW, INNER);
    dear.b = full_of_truths(p, INNER, NARROW);
    OK(TrB_Matrix_new(p, &dear.c, TrB_BOOL, NARROW, NARROW));
    call_for_product(p, &dear);
    expect_product(p, &dear);
    uint64_t all = blocks_of(p);
    HOLDS(all > 0);
    help_without_memory(&passes[1], all);
    fprintf(stderr, "dear products, refused and made alone:");
    checked_row = row;
    for (Way way = ONCE; way < WAYS; way++) {
        Supply supply = first_supply(way);
        unsigned went[3] = {0};
        Went last;
        do {
            snprintf(row, sizeof row, "%s %zu", name_of_way(way), supply.number);
            last = try_product(p, &dear, all, supply);
            went[last]++;
        } while (go_on(&supply));
        fprintf(stderr, " %u %u", went[WAS_REFUSED], went[ALONE]);
        HOLDS(last == BY_BLOCKS && went[WAS_REFUSED] > 0 && (way != ONCE || went[ALONE] > 0));
    }
    checked_row = NULL;
    fprintf(stderr, "\n");
    help_in_between(passes, &dear, all);
    expect_product(&passes[1], &dear);
    free_both(passes);
    HOLDS(memory.held == before);
    printf("dear products are refused in turn, and none of them is tried twice\n");
}

int main(void)
{
    take_numbers();
    sweep("reads of dear results are refused in turn, and leave all answers", refused_reads);
    take_many_turns();
    multiply_too_much();
    multiply_by_blocks();
    return 0;
}

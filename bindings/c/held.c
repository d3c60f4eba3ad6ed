/* Bytes that are held. A successor and a branch copy no entry, and neither does a result that comes back from one. What
 * was replaced and nothing needs is let go of, and so is what a pass releases; a branch keeps what it began with, and
 * is then the only one that does.
 *
 * fail.sh links it, as memory.h tells. Standard error tells the bytes.
 */
#include "check.h"
#include "memory.h"
#include "trials.h"
#include "trowelheath.h"

#include <stdio.h>

/* So many entries take more than twice the memory that is left. */
enum { MANY = 20000, FEW = 2, ROOM = 16 };

/* A column and a row, and their product, which stores all its entries. An entry is a number of 8 bytes and more. */
enum { SIDE = 128, COUNT = SIDE * SIDE, COLUMN_BYTES = 8 * SIDE, PRODUCT_BYTES = 8 * COUNT };

static TrB_Index indices[MANY], zeros[MANY];
static uint64_t ones[MANY];

/* From the last place to the first, so that a build sorts them, and shares nothing with the history. */
static void fill(TrB_Index count)
{
    for (TrB_Index k = 0; k < count; k++) {
        indices[k] = count - 1 - k;
        ones[k] = 1;
    }
}

/* The last call of the pass evaluated so many calls. */
static void has_made(TrB_Pass *pass, uint32_t made)
{
    TrB_Facts facts;
    OK(TrB_facts(pass, &facts));
    HOLDS(facts.made == made);
}

/* ---- No entry is copied -------------------------------------------------------------------------- */

/* A vector and a matrix of so many ones. */
typedef struct {
    TrB_Vector v;
    TrB_Matrix a;
} Pair;

static void counts(TrB_Pass *pass, Pair pair, TrB_Index wanted)
{
    TrB_Index nvals;
    OK(TrB_Vector_nvals(pass, &nvals, pair.v));
    HOLDS(nvals == wanted);
    OK(TrB_Matrix_nvals(pass, &nvals, pair.a));
    HOLDS(nvals == wanted);
}

static Pair new_pair(TrB_Pass *pass)
{
    Pair pair;
    OK(TrB_Vector_new(pass, &pair.v, TrB_UINT64, MANY));
    OK(TrB_Matrix_new(pass, &pair.a, TrB_UINT64, MANY, 1));
    return pair;
}

static Pair make_pair(TrB_Pass *pass, TrB_Index count)
{
    Pair pair = new_pair(pass);
    fill(count);
    OK(TrB_Vector_build_UINT64(pass, pair.v, indices, ones, count, TrB_PLUS));
    OK(TrB_Matrix_build_UINT64(pass, pair.a, indices, zeros, ones, count, TrB_PLUS));
    counts(pass, pair, count);
    return pair;
}

/* The bytes that a successor takes, or a branch, with a count of so many entries. */
static size_t bytes_of_next(TrB_Index count, bool is_branch)
{
    TrB_Pass pass = TRB_PASS_INIT, next[2] = {TRB_PASS_INIT};
    uint64_t needed;
    OK(TrB_open(ROOM, &pass, 1));
    Pair pair = make_pair(&pass, count);
    hold_back(SOME);
    if (is_branch) {
        OK(TrB_branch(&pass, &needed, &pair.a, 1, &pair.v, 1, ROOM, next, 2));
    } else {
        OK(TrB_succeed(&pass, &needed, ROOM, next, 2));
    }
    counts(&next[1], pair, count);
    let_go();
    HOLDS(memory.refused == 0);
    size_t bytes = memory.most - memory.base;
    TrB_free(&next[0]);
    TrB_free(&next[1]);
    TrB_free(&pass);
    return bytes;
}

/* The bytes that a store takes for so many entries that a branch has made, with a count of them. */
static size_t bytes_of_result(TrB_Index count)
{
    TrB_Pass pass = TRB_PASS_INIT, own = TRB_PASS_INIT;
    uint64_t needed;
    OK(TrB_open(ROOM, &pass, 1));
    OK(TrB_branch(&pass, &needed, NULL, 0, NULL, 0, ROOM, &own, 1));
    Pair made = make_pair(&own, count), pair = new_pair(&pass);
    hold_back(SOME);
    OK(TrB_Vector_build_from(&pass, pair.v, &own, made.v));
    OK(TrB_Matrix_build_from(&pass, pair.a, &own, made.a));
    counts(&pass, pair, count);
    let_go();
    HOLDS(memory.refused == 0);
    size_t bytes = memory.most - memory.base;
    TrB_free(&own);
    counts(&pass, pair, count);
    TrB_free(&pass);
    return bytes;
}

/* Many entries take the bytes that few take. */
static void copy_nothing(void)
{
    for (int is_branch = 0; is_branch < 2; is_branch++) {
        size_t many = bytes_of_next(MANY, is_branch), few = bytes_of_next(FEW, is_branch);
        fprintf(stderr, "%s: %zu bytes, of few entries %zu\n", is_branch ? "branch" : "successor", many, few);
        HOLDS(many == few);
    }
    size_t many = bytes_of_result(MANY), few = bytes_of_result(FEW);
    fprintf(stderr, "result: %zu bytes, of few entries %zu\n", many, few);
    HOLDS(many == few);
    printf("a successor, a branch and a result of one copy no entry\n");
}

/* ---- What nothing needs is let go of ------------------------------------------------------------- */

typedef struct {
    TrB_Matrix column, row, product;
} Product;

static void multiply(TrB_Pass *pass, const Product *p, TrB_BinaryOp accum)
{
    OK(TrB_mxm(pass, p->product, TrB_NO_MATRIX, accum, TrB_PLUS_TIMES, p->column, p->row, TrB_DEFAULT));
    has_made(pass, 0);
}

/* Counts the entries of the product; so many calls are made for that. */
static void count_product(TrB_Pass *pass, const Product *p, uint32_t made)
{
    TrB_Index nvals;
    OK(TrB_Matrix_nvals(pass, &nvals, p->product));
    HOLDS(nvals == COUNT);
    has_made(pass, made);
}

/* Makes a column and a row, and counts them; and makes their product. */
static Product make_product(TrB_Pass *pass)
{
    Product p;
    TrB_Index nvals;
    fill(SIDE);
    OK(TrB_open(64, pass, 1));
    OK(TrB_Matrix_new(pass, &p.column, TrB_UINT64, SIDE, 1));
    OK(TrB_Matrix_new(pass, &p.row, TrB_UINT64, 1, SIDE));
    OK(TrB_Matrix_build_UINT64(pass, p.column, indices, zeros, ones, SIDE, TrB_PLUS));
    OK(TrB_Matrix_build_UINT64(pass, p.row, zeros, indices, ones, SIDE, TrB_PLUS));
    OK(TrB_Matrix_nvals(pass, &nvals, p.column));
    HOLDS(nvals == SIDE);
    OK(TrB_Matrix_nvals(pass, &nvals, p.row));
    HOLDS(nvals == SIDE);
    OK(TrB_Matrix_new(pass, &p.product, TrB_UINT64, SIDE, SIDE));
    multiply(pass, &p, TrB_NO_ACCUM);
    count_product(pass, &p, 1);
    return p;
}

/* Lets go of all that the pass has evaluated. Takes no memory. */
static void release(TrB_Pass *pass)
{
    hold_back(NOTHING);
    OK(TrB_release(pass));
    let_go();
    HOLDS(memory.asked == 0);
}

/* A branch that has the column and the product as they are. */
static void keep(TrB_Pass *pass, const Product *p, TrB_Pass *own)
{
    const TrB_Matrix kept[] = {p->column, p->product};
    uint64_t needed;
    OK(TrB_branch(pass, &needed, kept, 2, NULL, 0, ROOM, own, 1));
}

/* The branch still has the ones that it began with. */
static void expect_kept(TrB_Pass *own)
{
    TrB_Index nvals;
    uint64_t sum;
    OK(TrB_Matrix_nvals(own, &nvals, (TrB_Matrix){1}));
    HOLDS(nvals == COUNT);
    OK(TrB_Matrix_reduce_UINT64(own, &sum, TrB_PLUS, (TrB_Matrix){1}));
    HOLDS(sum == COUNT);
    OK(TrB_Matrix_reduce_UINT64(own, &sum, TrB_PLUS, (TrB_Matrix){0}));
    HOLDS(sum == SIDE);
}

/* Sets an entry of the column and adds to the product, and reads the sum: two calls. */
static void replace(TrB_Pass *pass, const Product *p)
{
    OK(TrB_Matrix_setElement_UINT64(pass, p->column, 5, 0, 0));
    has_made(pass, 0);
    multiply(pass, p, TrB_PLUS);
    count_product(pass, p, 2);
}

/* Nothing needs what the column and the product were before: the pass holds no more than it did. Where a branch has
 * both, it alone holds them: when it ends, the pass again holds no more. */
static void replace_all(void)
{
    TrB_Pass pass = TRB_PASS_INIT, own = TRB_PASS_INIT;
    Product p = make_product(&pass);
    size_t before = memory.held;
    keep(&pass, &p, &own);
    replace(&pass, &p);
    expect_kept(&own);
    size_t both = memory.held;
    HOLDS(both >= before + PRODUCT_BYTES + COLUMN_BYTES);
    TrB_free(&own);
    fprintf(stderr, "replaced: from %zu to %zu bytes, and with a branch %zu\n", before, memory.held, both);
    HOLDS(memory.held < before + COLUMN_BYTES);

    before = memory.held;
    replace(&pass, &p);
    fprintf(stderr, "once more: %zu\n", memory.held);
    HOLDS(memory.held < before + COLUMN_BYTES);
    TrB_free(&pass);
    printf("what was replaced and nothing needs is let go of\n");
}

/* A product that a branch has outlives what the pass lets go of, which makes its calls anew: four of the sources, and
 * the product. The branch alone holds the first one then. */
static void release_all(void)
{
    TrB_Pass pass = TRB_PASS_INIT, own = TRB_PASS_INIT;
    Product p = make_product(&pass);
    size_t first = memory.held;
    keep(&pass, &p, &own);
    expect_kept(&own);
    size_t before = memory.held;
    release(&pass);
    size_t released = memory.held;
    HOLDS(released < before && before - released < PRODUCT_BYTES);
    expect_kept(&own);
    count_product(&pass, &p, 5);
    size_t again = memory.held;
    HOLDS(again >= released + PRODUCT_BYTES);
    expect_kept(&own);
    TrB_free(&own);
    fprintf(stderr, "released: from %zu to %zu bytes, made anew: %zu, ", before, released, again);
    fprintf(stderr, "without the branch: %zu\n", memory.held);
    HOLDS(again >= memory.held + PRODUCT_BYTES && memory.held < first + COLUMN_BYTES);
    count_product(&pass, &p, 0);

    /* Where nothing else has it, it is given back at once, and so is the column. */
    before = memory.held;
    release(&pass);
    HOLDS(before >= memory.held + PRODUCT_BYTES + COLUMN_BYTES);
    TrB_free(&pass);
    printf("what a branch has outlives what a pass lets go of\n");
}

int main(void)
{
    take_numbers();
    size_t before = memory.held;
    copy_nothing();
    replace_all();
    release_all();
    HOLDS(memory.held == before);
    return 0;
}

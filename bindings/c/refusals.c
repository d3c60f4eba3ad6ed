/* Every status that a caller can provoke, but for those of memory. After each refusal the store is as
 * it was.
 *
 *     cc -std=c11 -O2 -o refusals refusals.c libgrb_c.a liblibc_c.a -lpthread
 */
#include "check.h"
#include "trowelheath.h"

#include <inttypes.h>
#include <stdio.h>
#include <stdlib.h>
#include <string.h>

enum { ROOM = 40, MOST_PASSES = 256 };

/* How often an object is chosen for a branch. It takes two changes each time: with 4,095 beside them they are one more than
 * 256 passes may share. */
enum { MOST_CHOSEN = 522241 };
#define UNTOUCHED 77
#define DIMENSION_TOO_LARGE ((TrB_Index)UINT32_MAX + 1)

/* Numbers that stand for nothing. */
#define NO_TYPE ((TrB_Type)2)
#define NO_OPERATOR ((TrB_BinaryOp)14)
#define NO_MODE ((TrB_WaitMode)2)
#define NO_DESCRIPTOR 32u
#define NEVER_MADE ((TrB_Matrix){1000})

/* The store of this program: a is 2 x 3, b is 2 x 2, each of numbers; t is 2 x 3, of truth values; v is
 * of size 3, w of size 2, each of numbers; gone was freed. */
static TrB_Pass passes[2] = {TRB_PASS_INIT};
static TrB_Matrix a, b, t, gone;
static TrB_Vector v, w;

static const TrB_Index rows[] = {0, 0, 1};
static const TrB_Index columns[] = {0, 2, 1};
static const uint64_t values[] = {5, 7, 9};

/* All that a refused call could have changed. */
typedef struct {
    uint64_t nrows, ncols, nvals;
    uint64_t rows[4], columns[4], values[4];
    uint64_t size, sum, b_nvals, t_nvals, w_nvals, room_left;
} Picture;

static Picture picture(void)
{
    Picture now;
    TrB_Facts facts;
    memset(&now, 0, sizeof now);
    now.nvals = 4;
    OK(TrB_Matrix_size(&passes[0], &now.nrows, &now.ncols, a));
    OK(TrB_Matrix_extractTuples_UINT64(&passes[0], now.rows, now.columns, now.values, &now.nvals, a));
    OK(TrB_Vector_size(&passes[0], &now.size, v));
    OK(TrB_Vector_reduce_UINT64(&passes[0], &now.sum, TrB_PLUS, v));
    OK(TrB_Matrix_nvals(&passes[0], &now.b_nvals, b));
    OK(TrB_Matrix_nvals(&passes[0], &now.t_nvals, t));
    OK(TrB_Vector_nvals(&passes[0], &now.w_nvals, w));
    OK(TrB_facts(&passes[0], &facts));
    now.room_left = facts.room_left;
    return now;
}

/* The call answers this status, and nothing has changed. Prints the status, and what was wrong. */
#define UNCHANGED(status, wrong, call)                             \
    do {                                                           \
        Picture before = picture();                                \
        ANSWERS(call, status);                                     \
        Picture after = picture();                                 \
        HOLDS(memcmp(&before, &after, sizeof before) == 0);        \
        printf("%s: %s\n", TrB_name(status), wrong);               \
    } while (0)

static void fill(void)
{
    TrB_Pass *pass = &passes[0];
    OK(TrB_open(ROOM, passes, 2));
    OK(TrB_Matrix_new(pass, &a, TrB_UINT64, 2, 3));
    OK(TrB_Matrix_build_UINT64(pass, a, rows, columns, values, 3, TrB_PLUS));
    OK(TrB_Matrix_new(pass, &b, TrB_UINT64, 2, 2));
    OK(TrB_Matrix_new(pass, &t, TrB_BOOL, 2, 3));
    OK(TrB_Matrix_setElement_BOOL(pass, t, true, 1, 2));
    OK(TrB_Vector_new(pass, &v, TrB_UINT64, 3));
    OK(TrB_Vector_setElement_UINT64(pass, v, 4, 2));
    OK(TrB_Vector_new(pass, &w, TrB_UINT64, 2));
    OK(TrB_Matrix_new(pass, &gone, TrB_UINT64, 2, 3));
    OK(TrB_Matrix_free(pass, gone));

    Picture now = picture();
    HOLDS(now.nrows == 2 && now.ncols == 3 && now.nvals == 3 && now.size == 3 && now.sum == 4);
    HOLDS(memcmp(now.rows, rows, sizeof rows) == 0);
    HOLDS(memcmp(now.columns, columns, sizeof columns) == 0);
    HOLDS(memcmp(now.values, values, sizeof values) == 0);
}

static void of_openings(void)
{
    static TrB_Pass none[MOST_PASSES + 1] = {TRB_PASS_INIT};
    UNCHANGED(TrB_INVALID_VALUE, "a room of 0", TrB_open(0, none, 1));
    UNCHANGED(TrB_INVALID_VALUE, "a room of 65,537", TrB_open(65537, none, 1));
    UNCHANGED(TrB_INVALID_VALUE, "no passes", TrB_open(1, none, 0));
    UNCHANGED(TrB_INVALID_VALUE, "257 passes", TrB_open(1, none, MOST_PASSES + 1));
    UNCHANGED(TrB_INVALID_VALUE, "room times passes above 1,048,576", TrB_open(65536, none, 17));

    /* A pass that is open stays so, and its store too. */
    static TrB_Pass second[2] = {TRB_PASS_INIT};
    OK(TrB_open(1, &second[1], 1));
    UNCHANGED(TrB_INVALID_VALUE, "an opening by a pass that is open", TrB_open(1, second, 2));
    UNCHANGED(TrB_INVALID_VALUE, "an opening by the passes of this store", TrB_open(ROOM, passes, 2));
    UNCHANGED(TrB_INVALID_VALUE, "a room of 0 and a pass that is open", TrB_open(0, &second[1], 1));
    bool full = true;
    ANSWERS(TrB_is_full(&second[0], &full), TrB_UNINITIALIZED_OBJECT);
    OK(TrB_is_full(&second[1], &full));
    HOLDS(!full);
    TrB_free(&second[1]);

    /* None of these was opened. */
    TrB_Index nvals = UNTOUCHED;
    UNCHANGED(TrB_UNINITIALIZED_OBJECT, "a pass that is none", TrB_Matrix_nvals(&none[0], &nvals, a));
    HOLDS(nvals == UNTOUCHED);
}

static void of_successors(void)
{
    static TrB_Pass next[MOST_PASSES + 1] = {TRB_PASS_INIT};
    TrB_Pass none = TRB_PASS_INIT;
    uint64_t needed = UNTOUCHED;
    UNCHANGED(TrB_INVALID_VALUE, "a successor with a room of 0", TrB_succeed(&passes[0], &needed, 0, next, 1));
    UNCHANGED(TrB_INVALID_VALUE, "a successor with 257 passes",
            TrB_succeed(&passes[0], &needed, 1, next, MOST_PASSES + 1));
    UNCHANGED(TrB_INVALID_VALUE, "a successor by a pass that is open", TrB_succeed(&passes[0], &needed, ROOM, &passes[1], 1));
    UNCHANGED(TrB_UNINITIALIZED_OBJECT, "a successor of no pass", TrB_succeed(&none, &needed, ROOM, next, 1));
    HOLDS(needed == UNTOUCHED);

    /* None of these was opened. */
    bool full = true;
    UNCHANGED(TrB_UNINITIALIZED_OBJECT, "whether no pass is full", TrB_is_full(&next[0], &full));
    HOLDS(full);
}

/* What a chain refuses, and what a store refuses that is none. */
static void of_chains(void)
{
    static TrB_Pass links[MOST_PASSES + 1] = {TRB_PASS_INIT};
    TrB_Pass none = TRB_PASS_INIT;
    uint64_t generation = UNTOUCHED, needed = UNTOUCHED;
    bool moved = true;
    UNCHANGED(TrB_INVALID_VALUE, "a chain with a room of 0", TrB_chain_open(0, links, 1));
    UNCHANGED(TrB_INVALID_VALUE, "a chain with a room of 65,537", TrB_chain_open(65537, links, 1));
    UNCHANGED(TrB_INVALID_VALUE, "a chain with no passes", TrB_chain_open(1, links, 0));
    UNCHANGED(TrB_INVALID_VALUE, "a chain with 257 passes", TrB_chain_open(1, links, MOST_PASSES + 1));
    UNCHANGED(TrB_INVALID_VALUE, "a chain by the passes of this store", TrB_chain_open(ROOM, passes, 2));
    UNCHANGED(TrB_INVALID_VALUE, "the generation of a store", TrB_chain_generation(&passes[0], &generation));
    UNCHANGED(TrB_INVALID_VALUE, "the objects that a store has place for", TrB_chain_objects_left(&passes[0], &generation));
    UNCHANGED(TrB_INVALID_VALUE, "a store goes on", TrB_chain_go_on(&passes[0], &needed, &moved));
    UNCHANGED(TrB_INVALID_VALUE, "a seat of a store", TrB_chain_seat(&passes[0], 0, &none));
    UNCHANGED(TrB_UNINITIALIZED_OBJECT, "the generation of no pass", TrB_chain_generation(&none, &generation));
    UNCHANGED(TrB_UNINITIALIZED_OBJECT, "the objects that no pass has place for", TrB_chain_objects_left(&none, &generation));
    UNCHANGED(TrB_UNINITIALIZED_OBJECT, "no pass goes on", TrB_chain_go_on(&none, &needed, &moved));
    UNCHANGED(TrB_UNINITIALIZED_OBJECT, "a seat of no pass", TrB_chain_seat(&none, 0, &links[0]));

    /* A pass that was open before a refused opening stays so. */
    OK(TrB_chain_open(10, &links[1], 2));
    UNCHANGED(TrB_INVALID_VALUE, "a chain by a pass of a chain", TrB_chain_open(10, links, 2));
    UNCHANGED(TrB_INVALID_VALUE, "a store by a pass of a chain", TrB_open(10, links, 2));
    UNCHANGED(TrB_INVALID_VALUE, "a chain meets a store", TrB_meet(&links[1], &passes[0]));
    UNCHANGED(TrB_INVALID_VALUE, "a store adopts of a chain", TrB_adopt(&passes[0], &links[1]));
    UNCHANGED(TrB_INVALID_VALUE, "a successor of a chain", TrB_succeed(&links[1], &needed, ROOM, links, 1));
    UNCHANGED(TrB_INVALID_VALUE, "a seat in a pass that is open", TrB_chain_seat(&links[1], 1, &links[2]));
    UNCHANGED(TrB_INVALID_VALUE, "a seat in the pass that asks", TrB_chain_seat(&links[1], 0, &links[1]));
    UNCHANGED(TrB_NO_VALUE, "the seat of a pass that is open", TrB_chain_seat(&links[1], 1, &none));
    UNCHANGED(TrB_NO_VALUE, "a seat that a chain has not", TrB_chain_seat(&links[1], 2, &none));
    HOLDS(generation == UNTOUCHED && needed == UNTOUCHED && moved);
    OK(TrB_chain_generation(&links[1], &generation));
    HOLDS(generation == 0);
    OK(TrB_meet(&links[1], &links[2]));
    TrB_free(&links[1]);
    TrB_free(&links[2]);
    ANSWERS(TrB_chain_generation(&links[0], &generation), TrB_UNINITIALIZED_OBJECT);
}

/* A store of 256 passes that begins with these objects is one change too large, and so is its successor. */
static void of_many_objects(void)
{
    static TrB_Pass next[MOST_PASSES] = {TRB_PASS_INIT};
    static TrB_Vector chosen[MOST_CHOSEN];
    TrB_Pass pass = TRB_PASS_INIT, apart = TRB_PASS_INIT;
    TrB_Vector made;
    uint64_t needed = UNTOUCHED, count = 0;
    OK(TrB_open(ROOM, &pass, 1));
    OK(TrB_Vector_new(&pass, &made, TrB_BOOL, 3));
    OK(TrB_Vector_setElement_BOOL(&pass, made, true, 2));
    for (size_t k = 0; k < MOST_CHOSEN; k++) {
        chosen[k] = made;
    }
    UNCHANGED(TrB_INSUFFICIENT_SPACE, "a branch of 256 passes that is a change too large",
              TrB_branch(&pass, &needed, NULL, 0, chosen, MOST_CHOSEN, 4095, next, MOST_PASSES));
    HOLDS(needed == 2 * MOST_CHOSEN);
    OK(TrB_branch(&pass, &needed, NULL, 0, chosen, MOST_CHOSEN, 1, &apart, 1));
    OK(TrB_Vector_nvals(&apart, &count, (TrB_Vector){MOST_CHOSEN - 1}));
    HOLDS(count == 1);
    needed = UNTOUCHED;
    UNCHANGED(TrB_INSUFFICIENT_SPACE, "a successor of 256 passes that is a change too large",
              TrB_succeed(&apart, &needed, 4095, next, MOST_PASSES));
    HOLDS(needed == 2 * MOST_CHOSEN);
    TrB_free(&apart);
    TrB_free(&pass);
}

static void of_meetings(void)
{
    TrB_Pass other = TRB_PASS_INIT, none = TRB_PASS_INIT;
    OK(TrB_open(1, &other, 1));
    UNCHANGED(TrB_INVALID_VALUE, "passes of two stores meet", TrB_meet(&passes[0], &other));
    UNCHANGED(TrB_INVALID_VALUE, "a pass adopts of another store", TrB_adopt(&passes[0], &other));
    UNCHANGED(TrB_INVALID_VALUE, "a pass meets itself", TrB_meet(&passes[0], &passes[0]));
    UNCHANGED(TrB_UNINITIALIZED_OBJECT, "a pass meets none", TrB_meet(&passes[0], &none));
    TrB_free(&other);
    UNCHANGED(TrB_UNINITIALIZED_OBJECT, "a pass meets a freed one", TrB_meet(&passes[0], &other));
    TrB_free(&other);
}

static void of_numbers(void)
{
    TrB_Pass *pass = &passes[0];
    TrB_Matrix made = {UNTOUCHED};
    uint64_t x = UNTOUCHED;
    UNCHANGED(TrB_INVALID_VALUE, "no such type", TrB_Matrix_new(pass, &made, NO_TYPE, 2, 2));
    UNCHANGED(TrB_INVALID_VALUE, "no rows", TrB_Matrix_new(pass, &made, TrB_UINT64, 0, 2));
    UNCHANGED(TrB_INVALID_VALUE, "2^32 columns", TrB_Matrix_new(pass, &made, TrB_UINT64, 2, DIMENSION_TOO_LARGE));
    UNCHANGED(TrB_INVALID_VALUE, "a resize to no columns", TrB_Matrix_resize(pass, a, 2, 0));
    UNCHANGED(TrB_INVALID_VALUE, "a resize to size 0", TrB_Vector_resize(pass, v, 0));
    UNCHANGED(TrB_INVALID_VALUE, "no such operator",
            TrB_Matrix_eWiseAdd(pass, a, TrB_NO_MATRIX, TrB_NO_ACCUM, NO_OPERATOR, a, a, TrB_DEFAULT));
    UNCHANGED(TrB_INVALID_VALUE, "no such accumulator",
            TrB_Matrix_eWiseAdd(pass, a, TrB_NO_MATRIX, NO_OPERATOR, TrB_PLUS, a, a, TrB_DEFAULT));
    UNCHANGED(TrB_INVALID_VALUE, "no such descriptor",
            TrB_Matrix_eWiseAdd(pass, a, TrB_NO_MATRIX, TrB_NO_ACCUM, TrB_PLUS, a, a, NO_DESCRIPTOR));
    UNCHANGED(TrB_INVALID_VALUE, "a semiring whose add is no monoid",
            TrB_mxm(pass, b, TrB_NO_MATRIX, TrB_NO_ACCUM, TrB_SEMIRING(TrB_MINUS, TrB_TIMES), b, b, TrB_DEFAULT));
    UNCHANGED(TrB_INVALID_VALUE, "a total by no monoid", TrB_Matrix_reduce_UINT64(pass, &x, TrB_FIRST, a));
    UNCHANGED(TrB_INVALID_VALUE, "no such mode", TrB_Matrix_wait(pass, a, NO_MODE));
    UNCHANGED(TrB_INVALID_VALUE, "a product of a vector and a matrix that is to be transposed",
            TrB_vxm(pass, v, TrB_NO_VECTOR, TrB_NO_ACCUM, TrB_PLUS_TIMES, w, a, TrB_TRAN));
    UNCHANGED(TrB_INVALID_VALUE, "a sum of vectors of which one is to be transposed",
            TrB_Vector_eWiseAdd(pass, v, TrB_NO_VECTOR, TrB_NO_ACCUM, TrB_PLUS, v, v, TrB_TRAN));
    UNCHANGED(TrB_INVALID_VALUE, "a product of vectors of which one is to be transposed",
            TrB_Vector_eWiseMult(pass, v, v, TrB_NO_ACCUM, TrB_TIMES, v, v, TrB_TRAN | TrB_STRUCTURE));
    UNCHANGED(TrB_INVALID_VALUE, "arrays of two lengths",
            (TrB_Info)trb_matrix_build_uint64(pass, b.id, rows, 3, columns, 2, values, 3, TrB_PLUS));
    HOLDS(made.id == UNTOUCHED && x == UNTOUCHED);
}

static void of_objects(void)
{
    TrB_Pass *pass = &passes[0];
    TrB_Matrix made = {UNTOUCHED};
    uint64_t x = UNTOUCHED;
    UNCHANGED(TrB_UNINITIALIZED_OBJECT, "a freed matrix", TrB_Matrix_nvals(pass, &x, gone));
    UNCHANGED(TrB_UNINITIALIZED_OBJECT, "a freed matrix by another pass", TrB_Matrix_dup(&passes[1], &made, gone));
    UNCHANGED(TrB_UNINITIALIZED_OBJECT, "a matrix freed twice", TrB_Matrix_free(pass, gone));
    UNCHANGED(TrB_UNINITIALIZED_OBJECT, "a matrix that was never made", TrB_Matrix_clear(pass, NEVER_MADE));
    UNCHANGED(TrB_UNINITIALIZED_OBJECT, "no matrix as an input",
            TrB_Matrix_reduce(pass, w, TrB_NO_VECTOR, TrB_NO_ACCUM, TrB_PLUS, TrB_NO_MATRIX, TrB_DEFAULT));
    UNCHANGED(TrB_UNINITIALIZED_OBJECT, "a freed matrix as a mask",
            TrB_Matrix_eWiseAdd(pass, a, gone, TrB_NO_ACCUM, TrB_PLUS, a, a, TrB_STRUCTURE));
    HOLDS(made.id == UNTOUCHED && x == UNTOUCHED);
}

static void of_indices(void)
{
    TrB_Pass *pass = &passes[0];
    const TrB_Index outside[] = {0, 3, 1};
    uint64_t x = UNTOUCHED;
    UNCHANGED(TrB_INVALID_INDEX, "a set outside", TrB_Matrix_setElement_UINT64(pass, a, 1, 2, 0));
    UNCHANGED(TrB_INVALID_INDEX, "a get outside", TrB_Vector_extractElement_UINT64(pass, &x, v, 3));
    UNCHANGED(TrB_INVALID_INDEX, "a removal outside", TrB_Matrix_removeElement(pass, a, 0, 3));
    UNCHANGED(TrB_INDEX_OUT_OF_BOUNDS, "a build outside",
            TrB_Matrix_build_UINT64(pass, b, outside, columns, values, 3, TrB_PLUS));
    UNCHANGED(TrB_OUTPUT_NOT_EMPTY, "a build of what stores an entry",
            TrB_Matrix_build_UINT64(pass, a, rows, columns, values, 3, TrB_PLUS));
    UNCHANGED(TrB_NO_VALUE, "a get where nothing is stored", TrB_Matrix_extractElement_UINT64(pass, &x, a, 1, 0));
    HOLDS(x == UNTOUCHED);
}

static void of_domains(void)
{
    TrB_Pass *pass = &passes[0];
    uint64_t x = UNTOUCHED;
    bool truth = true;
    UNCHANGED(TrB_DOMAIN_MISMATCH, "a truth value into numbers", TrB_Matrix_setElement_BOOL(pass, a, true, 0, 0));
    UNCHANGED(TrB_DOMAIN_MISMATCH, "a number out of truth values",
            TrB_Matrix_extractElement_UINT64(pass, &x, t, 1, 2));
    UNCHANGED(TrB_DOMAIN_MISMATCH, "a truth value out of numbers", TrB_Vector_extractElement_BOOL(pass, &truth, v, 2));
    UNCHANGED(TrB_DOMAIN_MISMATCH, "numbers into truth values",
            TrB_Matrix_eWiseAdd(pass, t, TrB_NO_MATRIX, TrB_NO_ACCUM, TrB_PLUS, a, a, TrB_DEFAULT));
    UNCHANGED(TrB_DOMAIN_MISMATCH, "a semiring of two domains",
            TrB_mxm(pass, b, TrB_NO_MATRIX, TrB_NO_ACCUM, TrB_SEMIRING(TrB_PLUS, TrB_LAND), b, b, TrB_DEFAULT));
    UNCHANGED(TrB_DOMAIN_MISMATCH, "a total of numbers by a monoid of truth values",
            TrB_Matrix_reduce_BOOL(pass, &truth, TrB_LOR, a));
    HOLDS(x == UNTOUCHED && truth);
}

static void of_shapes(void)
{
    TrB_Pass *pass = &passes[0];
    UNCHANGED(TrB_DIMENSION_MISMATCH, "a sum of two shapes",
            TrB_Matrix_eWiseAdd(pass, a, TrB_NO_MATRIX, TrB_NO_ACCUM, TrB_PLUS, a, b, TrB_DEFAULT));
    UNCHANGED(TrB_DIMENSION_MISMATCH, "a product whose inputs do not fit",
            TrB_mxm(pass, a, TrB_NO_MATRIX, TrB_NO_ACCUM, TrB_PLUS_TIMES, a, b, TrB_DEFAULT));
    UNCHANGED(TrB_DIMENSION_MISMATCH, "a transposed input that does not fit",
            TrB_mxv(pass, w, TrB_NO_VECTOR, TrB_NO_ACCUM, TrB_PLUS_TIMES, a, v, TrB_TRAN));
    UNCHANGED(TrB_DIMENSION_MISMATCH, "a mask of another shape",
            TrB_Matrix_eWiseMult(pass, b, a, TrB_NO_ACCUM, TrB_PLUS, b, b, TrB_DEFAULT));
}

/* Too little space tells the count, and nothing else. */
static void of_space(void)
{
    TrB_Index found_rows[] = {UNTOUCHED, UNTOUCHED}, found_columns[] = {UNTOUCHED, UNTOUCHED};
    uint64_t found[] = {UNTOUCHED, UNTOUCHED};
    TrB_Index nvals = 2;
    UNCHANGED(TrB_INSUFFICIENT_SPACE, "arrays with place for 2 of 3 entries",
            TrB_Matrix_extractTuples_UINT64(&passes[0], found_rows, found_columns, found, &nvals, a));
    HOLDS(nvals == 3);
    for (size_t k = 0; k < 2; k++) {
        HOLDS(found_rows[k] == UNTOUCHED && found_columns[k] == UNTOUCHED && found[k] == UNTOUCHED);
    }
}

/* A pass that is none tells nothing. */
static void of_facts(void)
{
    TrB_Pass none = TRB_PASS_INIT;
    TrB_Facts before, facts;
    memset(&facts, UNTOUCHED, sizeof facts);
    before = facts;
    UNCHANGED(TrB_UNINITIALIZED_OBJECT, "facts of no pass", TrB_facts(&none, &facts));
    HOLDS(memcmp(&facts, &before, sizeof facts) == 0);
}

/* A pass keeps the status of its last call on each object. */
static void of_errors(void)
{
    TrB_Pass *pass = &passes[0];
    TrB_Info last = TrB_PANIC;
    ANSWERS(TrB_Matrix_error(&passes[1], &last, b), TrB_NO_VALUE);
    HOLDS(last == TrB_PANIC);
    ANSWERS(TrB_Matrix_setElement_UINT64(pass, b, 1, 9, 9), TrB_INVALID_INDEX);
    OK(TrB_Matrix_error(pass, &last, b));
    HOLDS(last == TrB_INVALID_INDEX);
    OK(TrB_Matrix_wait(pass, b, TrB_COMPLETE));
    OK(TrB_Matrix_error(pass, &last, b));
    HOLDS(last == TrB_SUCCESS);
    printf("the last status of an object: as it was\n");
}

/* What was refused took no room. When the room is used up, changes are refused and reads go on. */
static void of_room(void)
{
    TrB_Pass *pass = &passes[0];
    TrB_Facts facts;
    uint64_t x;
    OK(TrB_facts(pass, &facts));
    HOLDS(facts.room_left == ROOM - 10);
    for (uint32_t k = 0; k < ROOM - 10; k++) {
        OK(TrB_Matrix_setElement_UINT64(pass, b, k, 0, 1));
    }
    UNCHANGED(TrB_ORDER_FULL, "one change more than there is room for",
            TrB_Matrix_setElement_UINT64(pass, b, 0, 0, 0));
    UNCHANGED(TrB_INVALID_INDEX, "a set outside, with no room left",
            TrB_Matrix_setElement_UINT64(&passes[1], b, 0, 2, 0));
    OK(TrB_Matrix_extractElement_UINT64(&passes[1], &x, b, 0, 1));
    HOLDS(x == ROOM - 11);
    printf("reads go on\n");

    bool full = false;
    OK(TrB_is_full(&passes[1], &full));
    HOLDS(full);
}

/* The library says whether it is proved. The environment says when it is not. */
static void of_proof(void)
{
    const char *wanted = getenv("TROWELHEATH_PROVED");
    HOLDS(TrB_is_proved() == (wanted == NULL || strcmp(wanted, "no") != 0));
}

int main(void)
{
    of_proof();
    fill();
    of_openings();
    of_successors();
    of_chains();
    of_many_objects();
    of_meetings();
    of_numbers();
    of_objects();
    of_indices();
    of_domains();
    of_shapes();
    of_space();
    of_facts();
    of_errors();
    of_room();

    /* A freed pass is none, and may be freed again. */
    TrB_free(&passes[0]);
    TrB_free(&passes[0]);
    TrB_Index nvals;
    ANSWERS(TrB_Matrix_nvals(&passes[0], &nvals, a), TrB_UNINITIALIZED_OBJECT);
    OK(TrB_Matrix_nvals(&passes[1], &nvals, a));
    HOLDS(nvals == 3);
    TrB_free(&passes[1]);
    printf("a freed pass is none; the other goes on\n");
    return 0;
}

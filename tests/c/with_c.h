/* What the tests of the calls with C share: a contraction, the three calls of it, what they leave, and what they refuse. */
#include "check.h"

enum { WORK = 12, UNSET = 77 };

/* All that a call is lent, with guard words around D, C and work. Nothing lies between the members, so that one comparison sees each word. */
typedef struct {
    matrices m;
    nezgrak_layout c;
    uint32_t c_words[GUARD + WORDS + GUARD], work[GUARD + WORK + GUARD], complete, state;
    uint64_t done_after;
} lent;

_Static_assert(
    sizeof(lent) == sizeof(matrices) + sizeof(nezgrak_layout) + (GUARD + WORDS + GUARD + GUARD + WORK + GUARD + 2 + 2) * sizeof(uint32_t),
    "nothing lies between the members");

/* What is lent and what is passed beside it. C's words are others where `c` is not null. */
typedef struct {
    lent at;
    const uint32_t *c;
    size_t c_count, work_count;
    uint32_t alpha, beta, rows, cols, depth;
    uint64_t done, budget, row, column;
} contraction;

/* The product of the two matrices, 11 14 8 10 in the order of D's words, and 2 * C: 1000 2000 3000 4000, with D's layout. D's old words are 100 200 300 400.
 * Eight tiles, three of them done. */
static inline contraction product(void)
{
    contraction x = {{two_by_two(), {{0}, {0}, {0}, 0, 0, 0, 0}, {0}, {0}, UNSET, UNSET, UNSET}, NULL, WORDS, WORK, 1, 2, 1, 1, 2, 3, 8, 0, 0};
    x.at.c = x.at.m.d;
    fill(x.at.c_words, WORDS, 1000, 1000);
    fill(x.at.work, WORK, 50, 1);
    return x;
}

/* The same, with another layout of C. */
static inline contraction with_c(const char *letters, const uint32_t *extents, const int32_t *strides, uint32_t base)
{
    contraction x = product();
    x.at.c = nezgrak_layout_of(letters, extents, strides, (uint32_t)strlen(letters), base);
    return x;
}

/* Two letters of extent 2. */
static inline contraction with_c_square(const char *letters, int32_t first, int32_t second, uint32_t base)
{
    return with_c(letters, (const uint32_t[]){2, 2}, (const int32_t[]){first, second}, base);
}

static inline const uint32_t *words_of_c(const contraction *x)
{
    return x->c ? x->c : x->at.c_words + GUARD;
}

static inline uint32_t contract(contraction *x)
{
    matrices *m = &x->at.m;
    return nezgrak_contract_with_c(
        &m->a, m->a_words, 6, &m->b, m->b_words, 6, &x->at.c, words_of_c(x), x->c_count, &m->d, m->d_words + GUARD, WORDS, x->alpha, x->beta);
}

static inline uint32_t run(contraction *x)
{
    matrices *m = &x->at.m;
    return nezgrak_run_tiles_with_c(
        &m->a, m->a_words, 6, &m->b, m->b_words, 6, &x->at.c, words_of_c(x), x->c_count, &m->d, m->d_words + GUARD, WORDS, x->alpha, x->beta,
        x->rows, x->cols, x->depth, x->at.work + GUARD, x->work_count, x->done, x->budget, &x->at.done_after, &x->at.complete);
}

static inline uint32_t ask(contraction *x)
{
    matrices *m = &x->at.m;
    return nezgrak_state_with_c(
        &m->a, m->a_words, 6, &m->b, m->b_words, 6, &x->at.c, words_of_c(x), x->c_count, &m->d, m->d_words + GUARD, WORDS, x->alpha, x->beta,
        x->rows, x->cols, x->depth, x->done, 0, x->row, x->column, &x->at.state);
}

static inline int same(const lent *x, const lent *y)
{
    return memcmp(x, y, sizeof *x) == 0;
}

/* Do all tiles, a budget of them at a time, leave what is expected, and change nothing but work and the two answers? */
static inline int tiles_leave(contraction x, uint64_t budget, lent expected)
{
    uint32_t found = 0;
    x.budget = budget;
    x.done = 0;
    x.at.complete = 0;
    for (int calls = 0; calls < 16 && found == 0 && x.at.complete == 0; calls++) {
        found = run(&x);
        x.done = x.at.done_after;
    }
    memcpy(expected.work + GUARD, x.at.work + GUARD, WORK * sizeof *expected.work);
    expected.complete = 1;
    expected.done_after = x.done;
    return found == 0 && same(&expected, &x.at);
}

/* Do the plain call and the tiles of several sizes, all at once and one by one, leave these words in D, and change nothing else? */
static inline void leaves(const char *name, contraction x, const uint32_t *words)
{
    static const uint32_t sizes[6][3] = {{1, 1, 1}, {1, 1, 2}, {2, 2, 3}, {3, 1, 1}, {1, 3, 2}, {4, 4, 1}};
    contraction plain = x;
    lent expected = x.at;
    memcpy(expected.m.d_words + GUARD, words, WORDS * sizeof *words);
    int hold = contract(&plain) == 0 && same(&expected, &plain.at);
    for (int i = 0; i < 6; i++) {
        x.rows = sizes[i][0];
        x.cols = sizes[i][1];
        x.depth = sizes[i][2];
        hold = hold && tiles_leave(x, 1, expected) && tiles_leave(x, UINT64_MAX, expected);
    }
    check(name, hold);
}

/* Does this call answer so, and change nothing? A tile call gives the count back and is not complete. */
static inline int refuses(uint32_t (*call)(contraction *), contraction x, uint32_t answer)
{
    lent expected = x.at;
    if (call == run) {
        expected.done_after = x.done;
        expected.complete = 0;
    }
    return call(&x) == answer && same(&expected, &x.at);
}

static inline int all_refuse(contraction x, uint32_t answer)
{
    return refuses(contract, x, answer) && refuses(run, x, answer) && refuses(ask, x, answer);
}

static inline void refused(const char *name, contraction x, uint32_t answer)
{
    check(name, all_refuse(x, answer));
}

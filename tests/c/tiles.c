/* Tile calls and state questions from C. Prints a line for each check; the status is 0 where all hold. */
#include "check.h"

enum { WORK = 6, UNSET = 77 };

/* The product of the two matrices by tiles, with guard words on both sides of work. */
typedef struct {
    matrices m;
    uint32_t work[GUARD + WORK + GUARD];
    size_t work_count;
    uint32_t rows, cols, depth, complete, state;
    uint64_t done, budget, done_after, batch, row, column;
} contraction;

/* Eight tiles. Work has two words to spare. */
static contraction product(void)
{
    contraction c = {two_by_two(), {0}, WORK, 1, 1, 2, UNSET, UNSET, 0, 8, UNSET, 0, 0, 0};
    fill(c.work, WORK, 50, 1);
    return c;
}

static uint32_t run(contraction *c)
{
    return nezgrak_run_tiles(
        &c->m.a, c->m.a_words, 6, &c->m.b, c->m.b_words, 6, &c->m.d, c->m.d_words + GUARD, WORDS, 1, 2,
        c->rows, c->cols, c->depth, c->work + GUARD, c->work_count, c->done, c->budget, &c->done_after, &c->complete);
}

static uint32_t ask(contraction *c)
{
    return nezgrak_state(
        &c->m.a, c->m.a_words, 6, &c->m.b, c->m.b_words, 6, &c->m.d, c->m.d_words + GUARD, WORDS, 1, 2,
        c->rows, c->cols, c->depth, c->done, c->batch, c->row, c->column, &c->state);
}

static int same(const contraction *x, const contraction *y)
{
    return same_words(&x->m, &y->m) && memcmp(x->work, y->work, sizeof x->work) == 0 && x->done_after == y->done_after &&
           x->complete == y->complete && x->state == y->state;
}

/* A call from `done` on: the new count, these words in D and in work, and nothing else changed. */
static int runs(contraction c, uint64_t done_after, uint32_t complete, const uint32_t *d, const uint32_t *work)
{
    contraction after = c;
    uint32_t found = run(&after);
    memcpy(c.m.d_words + GUARD, d, WORDS * sizeof *d);
    memcpy(c.work + GUARD, work, WORK * sizeof *work);
    c.done_after = done_after;
    c.complete = complete;
    return found == 0 && same(&c, &after);
}

static void refused(const char *name, contraction c, uint32_t answer)
{
    contraction after = c;
    uint32_t found = run(&after);
    c.done_after = c.done;
    c.complete = 0;
    check(name, found == answer && same(&c, &after));
}

static void not_asked(const char *name, contraction c, uint32_t answer)
{
    contraction after = c;
    uint32_t found = ask(&after);
    check(name, found == answer && same(&c, &after));
}

/* A dot product of three terms, A's counted down, in panels of two. */
static void check_one_axis(void)
{
    const uint32_t a[] = {1, 2, 3}, b[] = {1, 0, 5};
    const nezgrak_layout down = {{'i'}, {3}, {-1}, 1, 1, 1, 2}, up = {{'i'}, {3}, {1}, 1, 1, 1, 0}, one = {{0}, {0}, {0}, 0, 0, 0, 0};
    uint32_t d[] = {5}, work[] = {9, 9, 9, 9}, complete = UNSET, state = UNSET;
    uint64_t done = UNSET;
    uint32_t found = nezgrak_run_tiles(&down, a, 3, &up, b, 3, &one, d, 1, 1, 2, 1, 1, 2, work, 4, 0, 1, &done, &complete);
    check("the first of two panels", found == 0 && done == 1 && complete == 0 && d[0] == 13 && work[0] == 3 && work[1] == 2);
    found = nezgrak_state(&down, a, 3, &up, b, 3, &one, d, 1, 1, 2, 1, 1, 2, done, 0, 0, 0, &state);
    check("a word with some panels done", found == 0 && state == NEZGRAK_PART);
}

static void check_calls(void)
{
    contraction c = product();
    const uint32_t old[] = {100, 200, 300, 400}, unchanged[] = {50, 51, 52, 53, 54, 55};
    const uint32_t three[] = {211, 402, 300, 400}, last_of_three[] = {5, 0, 2, 0, 54, 55};
    const uint32_t all[] = {211, 414, 608, 810}, last_of_all[] = {6, 0, 1, 0, 54, 55};
    c.budget = 0;
    check("a budget of 0 runs nothing", runs(c, 0, 0, old, unchanged));
    c.budget = 3;
    check("three tiles of eight", runs(c, 3, 0, three, last_of_three));
    c.budget = UINT64_MAX;
    check("all tiles", runs(c, 8, 1, all, last_of_all));
    c.done = 3;
    memcpy(c.m.d_words + GUARD, three, sizeof three);
    check("the rest after three tiles", runs(c, 8, 1, all, last_of_all));
    c.done = 8;
    memcpy(c.m.d_words + GUARD, all, sizeof all);
    check("nothing is left after the last tile", runs(c, 8, 1, all, unchanged));
}

/* Rows and columns of a tile that differ: the first of four tiles, and the word of its second row. */
static void check_uneven(void)
{
    contraction c = product();
    c.rows = 2;
    c.budget = 1;
    const uint32_t first[] = {201, 402, 300, 400}, packed[] = {1, 2, 3, 4, 1, 0};
    check("a tile of two rows and one column", runs(c, 1, 0, first, packed));
    c.done = 1;
    c.row = 1;
    check("the state of its second row", ask(&c) == 0 && c.state == NEZGRAK_PART);
}

static void check_states(void)
{
    static const uint32_t states[9][4] = {{0, 0, 0, 0}, {1, 0, 0, 0}, {1, 1, 0, 0}, {2, 1, 0, 0}, {2, 2, 0, 0},
                                          {2, 2, 1, 0}, {2, 2, 1, 1}, {2, 2, 2, 1}, {2, 2, 2, 2}};
    contraction c = product();
    int hold = 1;
    for (c.done = 0; c.done <= 8; c.done++) {
        for (unsigned n = 0; n < 4; n++) {
            c.row = n % 2;
            c.column = n / 2;
            contraction after = c;
            uint32_t found = ask(&after);
            contraction expected = c;
            expected.state = states[c.done][n];
            hold = hold && found == 0 && same(&expected, &after);
        }
    }
    check("the state of each word after each tile", hold);
}

/* k of extent 0 in A and B: one panel with no terms, four tiles of one word each. */
static void check_no_terms(void)
{
    contraction c = product();
    c.m.a.extents[1] = c.m.b.extents[0] = 0;
    const uint32_t three[] = {200, 400, 600, 400}, all[] = {200, 400, 600, 800}, zeros[] = {0, 0, 0, 0, 54, 55};
    c.budget = 3;
    check("three tiles with no terms: beta * old, and blocks of zeros", runs(c, 3, 0, three, zeros));
    c.budget = 4;
    check("all four tiles with no terms", runs(c, 4, 1, all, zeros));
    c.done = 3;
    contraction before = c, after = c;
    before.row = after.row = before.column = after.column = 1;
    after.done = 4;
    check("with no terms a word is old and then final", ask(&before) == 0 && before.state == NEZGRAK_OLD && ask(&after) == 0 && after.state == NEZGRAK_FINAL);
    c.done = 5;
    refused("12: five of four tiles with no terms", c, 12);
}

/* i of extent 0 in A and D: no tiles. */
static void check_no_tiles(void)
{
    contraction c = product();
    c.m.a.extents[0] = c.m.d.extents[0] = 0;
    const uint32_t old[] = {100, 200, 300, 400}, unchanged[] = {50, 51, 52, 53, 54, 55};
    check("no tiles: complete at once, and nothing changes", runs(c, 0, 1, old, unchanged));
    not_asked("13: no output index where there are no tiles", c, 13);
    c.done = 1;
    refused("12: one tile done where there are none", c, 12);
    not_asked("12: also of a state where there are no tiles", c, 12);
}

static void check_refusals(void)
{
    contraction c = product();
    c.column = 2;
    not_asked("13: a column count outside its group", c, 13);
    c.done = 9;
    refused("12: more tiles done than there are", c, 12);
    not_asked("12: also of a state", c, 12);
    c.work_count = 3;
    refused("11: one word of work too few", c, 11);
    not_asked("11 is not asked of a state", c, 12);
    c.depth = 129;
    refused("10: a depth over 128", c, 10);
    not_asked("10: also of a state", c, 10);
    c.m.d.strides[1] = 1;
    refused("9: the questions of the plain call come first", c, 9);
    not_asked("9: also of a state", c, 9);
}

int main(void)
{
    check_one_axis();
    check_calls();
    check_uneven();
    check_states();
    check_no_terms();
    check_no_tiles();
    check_refusals();
    return failed != 0;
}

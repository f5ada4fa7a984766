/* The calls in fixed point from C. Prints a line for each check; the status is 0 where all hold. */
#include "check.h"

enum { WORK = 6, SUMS = WORDS + 1, UNSET = 77 };

static const int64_t sum_guard = 0x5a3cf0967b1e2d48;

/* The product of the two matrices in fixed point, with guard words on both sides of D, work and sums. */
typedef struct {
    matrices m;
    uint32_t work[GUARD + WORK + GUARD];
    int64_t sums[GUARD + SUMS + GUARD];
    size_t work_count, sums_count;
    uint32_t shift, rows, cols, depth, complete;
    uint64_t done, budget, done_after;
} contraction;

/* Eight tiles, shift 2. Work has two words to spare, and there is one sum more than D has words. The sums before are -1, -2, .. */
static contraction product(void)
{
    contraction c = {two_by_two(), {0}, {0}, WORK, SUMS, 2, 1, 1, 2, UNSET, 0, 8, UNSET};
    fill(c.work, WORK, 50, 1);
    for (int i = 0; i < GUARD + SUMS + GUARD; i++) {
        c.sums[i] = i < GUARD || i >= GUARD + SUMS ? sum_guard : GUARD - 1 - i;
    }
    return c;
}

static uint32_t plain(contraction *c)
{
    return nezgrak_contract_fixed(&c->m.a, c->m.a_words, 6, &c->m.b, c->m.b_words, 6, &c->m.d, c->m.d_words + GUARD, WORDS, c->shift);
}

static uint32_t run(contraction *c)
{
    return nezgrak_run_tiles_fixed(
        &c->m.a, c->m.a_words, 6, &c->m.b, c->m.b_words, 6, &c->m.d, c->m.d_words + GUARD, WORDS, c->shift, c->rows, c->cols, c->depth,
        c->work + GUARD, c->work_count, c->sums + GUARD, c->sums_count, c->done, c->budget, &c->done_after, &c->complete);
}

static int same(const contraction *x, const contraction *y)
{
    return same_words(&x->m, &y->m) && memcmp(x->work, y->work, sizeof x->work) == 0 && memcmp(x->sums, y->sums, sizeof x->sums) == 0 &&
           x->done_after == y->done_after && x->complete == y->complete;
}

static void put_words(contraction *c, const int32_t *d)
{
    for (int i = 0; i < WORDS; i++) {
        c->m.d_words[GUARD + i] = (uint32_t)d[i];
    }
}

static void put_sums(contraction *c, const int64_t *sums)
{
    memcpy(c->sums + GUARD, sums, SUMS * sizeof *sums);
}

/* Does the plain call leave these words in D, and nothing else changed? */
static int leaves(contraction c, const int32_t *d)
{
    contraction after = c;
    uint32_t found = plain(&after);
    put_words(&c, d);
    return found == 0 && same(&c, &after);
}

/* A tile call: the new count, these words in D and in work, these sums, and nothing else changed. */
static int runs(contraction c, uint64_t done_after, const int32_t *d, const int64_t *sums, const uint32_t *work)
{
    contraction after = c;
    uint32_t found = run(&after);
    put_words(&c, d);
    put_sums(&c, sums);
    memcpy(c.work + GUARD, work, WORK * sizeof *work);
    c.done_after = done_after;
    c.complete = done_after == 8;
    return found == 0 && same(&c, &after);
}

static int refuses_plain(contraction c, uint32_t answer)
{
    contraction after = c;
    return plain(&after) == answer && same(&c, &after);
}

static int refuses_tiles(contraction c, uint32_t answer)
{
    contraction after = c;
    uint32_t found = run(&after);
    c.done_after = c.done;
    c.complete = 0;
    return found == answer && same(&c, &after);
}

/* The words of one product x * y onto an old word, by the plain call and by a tile call whose sum was -7. */
static int one_product(int32_t x, int32_t y, uint32_t shift, int32_t old, int32_t word)
{
    const nezgrak_layout one = nezgrak_layout_scalar(0);
    const uint32_t a = (uint32_t)x, b = (uint32_t)y;
    uint32_t d = (uint32_t)old, by_tiles = d, work[2] = {3, 3}, complete = UNSET;
    int64_t sum = -7;
    uint64_t done = UNSET;
    uint32_t found = nezgrak_contract_fixed(&one, &a, 1, &one, &b, 1, &one, &d, 1, shift);
    uint32_t tiles = nezgrak_run_tiles_fixed(&one, &a, 1, &one, &b, 1, &one, &by_tiles, 1, shift, 1, 1, 1, work, 2, &sum, 1, 0, 9, &done, &complete);
    return found == 0 && tiles == 0 && d == (uint32_t)word && by_tiles == d && sum == (int64_t)x * y && done == 1 && complete == 1 &&
           work[0] == a && work[1] == b;
}

static void check_plain(void)
{
    contraction c = product();
    const int32_t two[] = {103, 204, 302, 402}, minus[] = {97, 196, 298, 398}, none[] = {111, 214, 308, 410};
    check("sums 11, 14, 8 and 10 at shift 2", leaves(c, two));
    c.shift = 0;
    check("the same at shift 0", leaves(c, none));
    c.shift = 2;
    for (int i = 0; i < 6; i++) {
        c.m.a_words[i] = -c.m.a_words[i];
    }
    check("negative words of A", leaves(c, minus));
    for (int i = 0; i < 6; i++) {
        c.m.b_words[i] = -c.m.b_words[i];
    }
    check("negative words of both", leaves(c, two));
}

/* (2n + 1) * 2^(shift - 1) is half way between n and n + 1. */
static void check_ties(void)
{
    int up = 1, down = 1, exact = 1;
    for (uint32_t shift = 1; shift <= 15; shift++) {
        for (int n = -6; n <= 5; n++) {
            int32_t half = (int32_t)1 << (shift - 1), even = n % 2 ? n + 1 : n;
            up = up && one_product(2 * n + 1, half, shift, 1000, 1000 + even);
            down = down && one_product(-2 * n - 1, half, shift, -999, -999 - even);
            exact = exact && one_product(2 * n, half, shift, -1, -1 + n);
        }
    }
    check("ties to even at every shift", up);
    check("ties to even of the other sign", down);
    check("nothing to round at every shift", exact);
    check("less than half", one_product(7, 1, 4, 0, 0) && one_product(-7, 1, 4, 0, 0));
    check("more than half", one_product(9, 1, 4, 0, 1) && one_product(-9, 1, 4, 0, -1));
    check("the old word is not divided", one_product(1, 1, 1, 3, 3) && one_product(3, 1, 1, 3, 5) && one_product(0, 0, 15, 12345, 12345));
}

static void check_ends(void)
{
    check("held at 2^31 - 1", one_product(1, 1, 0, INT32_MAX, INT32_MAX) && one_product(32767, 32767, 0, INT32_MAX - 5, INT32_MAX));
    check("held at -2^31", one_product(-1, 1, 0, INT32_MIN, INT32_MIN) && one_product(-32768, 32767, 0, INT32_MIN + 5, INT32_MIN));
    check("2^31 - 1 and -2^31 themselves", one_product(1, 1, 0, INT32_MAX - 1, INT32_MAX) && one_product(-1, 1, 0, INT32_MIN + 1, INT32_MIN));
    check("words at both ends", one_product(-32768, -32768, 15, 0, 32768) && one_product(32767, -32768, 15, 0, -32767));
}

/* Four products of 2^30 less 1 onto -2^31: the part passes 32 bits, and the whole does not. */
static void check_only_the_whole(void)
{
    const uint32_t extents[] = {5}, low = (uint32_t)-32768;
    const int32_t strides[] = {1};
    const nezgrak_layout k = nezgrak_layout_of("k", extents, strides, 1, 0), one = nezgrak_layout_scalar(0);
    const uint32_t a[] = {low, low, low, low, 1}, b[] = {low, low, low, low, (uint32_t)-1};
    uint32_t d = (uint32_t)INT32_MIN, complete = UNSET, work[4];
    uint64_t done = UNSET;
    check("only the whole is held", nezgrak_contract_fixed(&k, a, 5, &k, b, 5, &one, &d, 1, 0) == 0 && d == INT32_MAX);
    int64_t sum = 0;
    d = (uint32_t)INT32_MIN;
    uint32_t found = nezgrak_run_tiles_fixed(&k, a, 5, &k, b, 5, &one, &d, 1, 0, 1, 1, 2, work, 4, &sum, 1, 0, 2, &done, &complete);
    check("two of three panels", found == 0 && d == (uint32_t)INT32_MIN && sum == INT64_C(1) << 32 && done == 2 && complete == 0);
    found = nezgrak_run_tiles_fixed(&k, a, 5, &k, b, 5, &one, &d, 1, 0, 1, 1, 2, work, 4, &sum, 1, 2, 2, &done, &complete);
    check("the third panel", found == 0 && d == INT32_MAX && sum == (INT64_C(1) << 32) - 1 && done == 3 && complete == 1);
    d = INT32_MAX;
    sum = INT64_MAX - 4;
    found = nezgrak_run_tiles_fixed(&k, a, 5, &k, a, 5, &one, &d, 1, 0, 1, 1, 2, work, 4, &sum, 1, 2, 1, &done, &complete);
    check("old and part of more than 64 bits", found == 0 && d == INT32_MAX && sum == INT64_MAX - 3);
    sum = INT64_MAX;
    found = nezgrak_run_tiles_fixed(&k, a, 5, &k, a, 5, &one, &d, 1, 0, 1, 1, 2, work, 4, &sum, 1, 2, 1, &done, &complete);
    check("a sum that wraps around", found == 0 && d == (uint32_t)INT32_MIN && sum == INT64_MIN);
    d = 0;
    sum = INT64_MAX - 1;
    found = nezgrak_run_tiles_fixed(&k, a, 5, &k, a, 5, &one, &d, 1, 15, 1, 1, 2, work, 4, &sum, 1, 2, 1, &done, &complete);
    check("the greatest sum and half a unit", found == 0 && d == INT32_MAX && sum == INT64_MAX);
}

static void check_tiles(void)
{
    contraction c = product();
    const int32_t old[] = {100, 200, 300, 400}, three[] = {103, 200, 300, 400}, all[] = {103, 204, 302, 402};
    const int64_t before[] = {-1, -2, -3, -4, -5}, after_three[] = {11, 2, -3, -4, -5}, after_all[] = {11, 14, 8, 10, -5};
    const uint32_t unchanged[] = {50, 51, 52, 53, 54, 55}, last_of_three[] = {5, 0, 2, 0, 54, 55}, last_of_all[] = {6, 0, 1, 0, 54, 55};
    c.budget = 0;
    check("a budget of 0 runs nothing", runs(c, 0, old, before, unchanged));
    c.budget = 3;
    check("three tiles of eight", runs(c, 3, three, after_three, last_of_three));
    c.budget = UINT64_MAX;
    check("all tiles", runs(c, 8, all, after_all, last_of_all));
    c.sums_count = WORDS;
    check("as many sums as words", runs(c, 8, all, after_all, last_of_all));
    c.done = 3;
    put_words(&c, three);
    put_sums(&c, after_three);
    check("the rest after three tiles", runs(c, 8, all, after_all, last_of_all));
    c.done = 8;
    put_words(&c, all);
    put_sums(&c, after_all);
    check("nothing is left after the last tile", runs(c, 8, all, after_all, unchanged));
}

/* D's rows two words apart: a sum stands at its word's place, whatever the number of the word is. */
static void check_places(void)
{
    contraction c = product();
    const int32_t all[] = {103, 202, 304, 402};
    const int64_t sums[] = {11, 8, 14, 10, -5};
    const uint32_t last[] = {6, 0, 1, 0, 54, 55};
    c.m.d.strides[0] = 2;
    c.m.d.strides[1] = 1;
    check("sums at the places of their words", runs(c, 8, all, sums, last));
}

/* From the third tile on the first two words' sums are added to, whatever they are. */
static void check_sums_met(void)
{
    contraction c = product();
    const int64_t met[] = {INT64_MAX - 9, INT64_MIN, 5, 6, 7}, after[] = {INT64_MIN, INT64_MIN + 12, 5, 6, 7};
    const int32_t words[] = {INT32_MIN, INT32_MIN, 300, 400};
    const uint32_t last[] = {6, 0, 2, 0, 54, 55};
    c.done = 2;
    c.budget = 2;
    put_sums(&c, met);
    check("any sums are met, and wrap", runs(c, 4, words, after, last));
}

/* k of extent 0 in A and B: one panel with no terms. */
static void check_no_terms(void)
{
    contraction c = product(), after;
    c.m.a.extents[1] = c.m.b.extents[0] = 0;
    c.budget = 3;
    const int32_t old[] = {100, 200, 300, 400};
    check("no terms: the plain call changes nothing", leaves(c, old));
    after = c;
    uint32_t found = run(&after);
    const int64_t sums[] = {0, 0, 0, -4, -5};
    check("no terms: three tiles of four put 0 into their sums", found == 0 && after.done_after == 3 && after.complete == 0 &&
          memcmp(after.sums + GUARD, sums, sizeof sums) == 0 && same_words(&c.m, &after.m));
    c.m.a_words[0] = 99999;
    check("no terms: words of a tensor without entries are not asked", leaves(c, old));
    c.m.a.extents[0] = c.m.d.extents[0] = 0;
    c.m.b.extents[0] = c.m.a.extents[1] = 3;
    check("no outputs: nothing changes", leaves(c, old));
    c.m.b_words[5] = 99999;
    check("35: no outputs, and a word of B", refuses_plain(c, 35) && refuses_tiles(c, 35));
}

/* A word at each place of A, and then of B. */
static int at_each_place(int32_t word, uint32_t answer)
{
    int hold = 1;
    for (int place = 0; place < 6; place++) {
        contraction a = product(), b = a;
        a.m.a_words[place] = b.m.b_words[place] = (uint32_t)word;
        hold = hold && (answer ? refuses_plain(a, 35) && refuses_plain(b, 35) && refuses_tiles(a, 35) && refuses_tiles(b, 35)
                               : plain(&a) == 0 && plain(&b) == 0 && run(&a) == 0 && run(&b) == 0);
    }
    return hold;
}

static void check_words(void)
{
    check("32,767 at each place", at_each_place(32767, 0));
    check("-32,768 at each place", at_each_place(-32768, 0));
    check("35: 32,768 at each place", at_each_place(32768, 35));
    check("35: -32,769 at each place", at_each_place(-32769, 35));
    check("35: 65,536 at each place", at_each_place(65536, 35));
    check("35: 2^31 - 1 at each place", at_each_place(INT32_MAX, 35));
    check("35: -2^31 at each place", at_each_place(INT32_MIN, 35));
    contraction c = product();
    c.m.a.extents[1] = c.m.b.extents[0] = 2;
    c.m.a_words[4] = c.m.a_words[5] = c.m.b_words[2] = c.m.b_words[5] = 99999;
    check("words that are no entries are not asked", plain(&c) == 0);
    c.m.b_words[4] = 99999;
    check("35: a word that is one", refuses_plain(c, 35));
    const nezgrak_layout diagonal = {{'i', 'i'}, {2, 2}, {1, 2}, 2, 2, 2, 0}, one = nezgrak_layout_scalar(0);
    uint32_t a[] = {5, 99999, 99999, 6}, b = 1, d = 7;
    check("words beside a diagonal are not asked", nezgrak_contract_fixed(&diagonal, a, 4, &one, &b, 1, &one, &d, 1, 0) == 0 && d == 18);
}

/* One label more, of stride 0, beside k, of extent 3: with extent 21,846 the depth is over 65,536. */
static void deepen(nezgrak_layout *l, uint32_t letter, uint32_t extent)
{
    uint32_t rank = l->letter_count++;
    l->extent_count = l->stride_count = l->letter_count;
    l->letters[rank] = letter;
    l->extents[rank] = extent;
    l->strides[rank] = 0;
}

static void check_depths_and_shifts(void)
{
    int hold = 1;
    contraction c = product(), of_a = c, of_b = c, even = c;
    even.m.a.extents[1] = even.m.b.extents[0] = 2;
    deepen(&even.m.b, 'o', 32768);
    check("a depth of 65,536", plain(&even) == 0);
    deepen(&of_a.m.a, 'o', 21846);
    deepen(&of_b.m.b, 'o', 21846);
    check("34: a depth of 65,538 by a label of A", refuses_plain(of_a, 34) && refuses_tiles(of_a, 34));
    check("34: a depth of 65,538 by a label of B", refuses_plain(of_b, 34) && refuses_tiles(of_b, 34));
    deepen(&of_a.m.b, 'p', 0);
    check("a depth of 0 beside it passes", plain(&of_a) == 0);
    for (c.shift = 16; c.shift < 70; c.shift++) {
        hold = hold && refuses_plain(c, 34) && refuses_tiles(c, 34);
    }
    c.shift = UINT32_MAX;
    check("34: every shift from 16 to 69, and 2^32 - 1", hold && refuses_plain(c, 34) && refuses_tiles(c, 34));
    c.shift = 15;
    check("a shift of 15", plain(&c) == 0);
}

static void check_order(void)
{
    contraction c = product();
    c.m.b_words[0] = 99999;
    c.budget = 0;
    check("35 of a tile call with budget 0", refuses_tiles(c, 35));
    c.done = 8;
    check("35 of a tile call after the last tile", refuses_tiles(c, 35));
    c.shift = 16;
    check("34 before 35", refuses_tiles(c, 34) && refuses_plain(c, 34));
    c.sums_count = WORDS - 1;
    check("33 before 34: one sum too few", refuses_tiles(c, 33));
    check("33 is not asked of the plain call", refuses_plain(c, 34));
    c.done = 9;
    check("12 before 33", refuses_tiles(c, 12));
    c.work_count = 3;
    check("11 before 33", refuses_tiles(c, 11));
    c.depth = 129;
    check("10 before 33", refuses_tiles(c, 10));
    c.m.d.strides[1] = 1;
    check("9 before 33 and 34", refuses_tiles(c, 9) && refuses_plain(c, 9));
    c = product();
    c.sums_count = 0;
    check("33: no sums", refuses_tiles(c, 33));
    c.sums_count = WORDS - 1;
    c.m.a.extents[0] = c.m.d.extents[0] = 1;
    check("33: as many sums as entries, and fewer than words", refuses_tiles(c, 33));
}

/* The state question is that of the other tile calls: words outside the range are none of its business. */
static void check_states(void)
{
    contraction c = product();
    const uint32_t expected[] = {NEZGRAK_FINAL, NEZGRAK_PART, NEZGRAK_OLD, NEZGRAK_OLD};
    int hold = 1;
    c.m.a_words[0] = 99999;
    for (unsigned n = 0; n < 4; n++) {
        uint32_t state = UNSET;
        uint32_t found = nezgrak_state(
            &c.m.a, c.m.a_words, 6, &c.m.b, c.m.b_words, 6, &c.m.d, c.m.d_words + GUARD, WORDS, 7, 9, 1, 1, 2, 3, 0, n % 2, n / 2, &state);
        hold = hold && found == 0 && state == expected[n];
    }
    check("states after three tiles", hold);
}

int main(void)
{
    check_plain();
    check_ties();
    check_ends();
    check_only_the_whole();
    check_tiles();
    check_places();
    check_sums_met();
    check_no_terms();
    check_words();
    check_depths_and_shifts();
    check_order();
    check_states();
    return failed != 0;
}

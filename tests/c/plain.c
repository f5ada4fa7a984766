/* The plain call from C. Prints a line for each check; the status is 0 where all hold. */
#include "check.h"

/* The product of the two matrices, what D's slice is said to hold, and the factors. */
typedef struct {
    matrices m;
    size_t d_count;
    uint32_t alpha, beta;
} contraction;

static contraction product(void)
{
    contraction c = {two_by_two(), WORDS, 1, 2};
    return c;
}

static uint32_t run(contraction *c)
{
    return nezgrak_contract(
        &c->m.a, c->m.a_words, 6, &c->m.b, c->m.b_words, 6, &c->m.d, c->m.d_words + GUARD, c->d_count, c->alpha, c->beta);
}

/* Does the call answer this and leave these words in D, and nothing else changed? */
static int answers(contraction c, uint32_t answer, const uint32_t *words)
{
    contraction after = c;
    uint32_t found = run(&after);
    memcpy(c.m.d_words + GUARD, words, WORDS * sizeof *words);
    return found == answer && same_words(&c.m, &after.m);
}

static void refused(const char *name, contraction c, uint32_t answer)
{
    check(name, answers(c, answer, c.m.d_words + GUARD));
}

/* A layout of one axis `i` of extent 3, word by word. */
static nezgrak_layout three_words(int32_t stride, uint32_t base)
{
    nezgrak_layout layout = {{'i'}, {3}, {stride}, 1, 1, 1, base};
    return layout;
}

static void check_one_axis(void)
{
    const uint32_t a[] = {1, 2, 3}, b[] = {1, 0, 0};
    const nezgrak_layout up = three_words(1, 0), down = three_words(-1, 2), below = three_words(-1, 1);
    const nezgrak_layout one = {{0}, {0}, {0}, 0, 0, 0, 0};
    uint32_t d[] = {5};
    uint32_t found = nezgrak_contract(&down, a, 3, &up, b, 3, &one, d, 1, 1, 0);
    check("a negative stride counts down from the base", found == 0 && d[0] == 3);
    found = nezgrak_contract(&below, a, 3, &up, b, 3, &one, d, 1, 1, 0);
    check("an entry below word 0 is refused by 8", found == 8 && d[0] == 3);
}

static void check_results(void)
{
    contraction c = product();
    check("the product of two matrices", answers(c, 0, (const uint32_t[]){211, 414, 608, 810}));

    c.m.a = c.m.d = nezgrak_layout_scalar(3);
    c.m.b = nezgrak_layout_scalar(4);
    c.alpha = 2;
    c.beta = 1;
    check("no letters: the words at the base", answers(c, 0, (const uint32_t[]){100, 200, 300, 408}));
    c.m.a_words[3] = c.m.b_words[4] = UINT32_MAX;
    check("words wrap", answers(c, 0, (const uint32_t[]){100, 200, 300, 402}));

    c = product();
    c.m.d.letters[1] = 'i';
    c.m.a = c.m.b = nezgrak_layout_scalar(5);
    check("a repeated letter of D is its diagonal", answers(c, 0, (const uint32_t[]){206, 200, 300, 806}));
}

/* Extents of 0: k in A and B, so that no term is left, and i in A and D, so that D has no entries. */
static void check_empty_layers(void)
{
    contraction c = product();
    c.m.a.extents[1] = c.m.b.extents[0] = 0;
    check("a sum over no values is 0", answers(c, 0, (const uint32_t[]){200, 400, 600, 800}));
    c.m.a.base = c.m.b.base = 16777216;
    check("no entry of A and B can be outside", answers(c, 0, (const uint32_t[]){200, 400, 600, 800}));
    c.m.b.base++;
    refused("5: a base, also without entries", c, 5);
    c = product();
    c.m.a.extents[0] = c.m.d.extents[0] = 0;
    c.m.d.strides[0] = c.m.d.strides[1] = 0;
    c.d_count = 0;
    check("no entry of D: strides of 0 and no words pass, and nothing changes", answers(c, 0, c.m.d_words + GUARD));
    c.m.b.extents[1] = c.m.d.extents[1] = 3;
    refused("8: B has entries beside tensors without", c, 8);
    c.m.d.extents[0] = 1;
    refused("6: an extent of 0 and one of 1", c, 6);
}

static void check_refusals(void)
{
    static const uint32_t ones[9] = {1, 1, 1, 1, 1, 1, 1, 1, 1}, past[2] = {2, 65537}, large[3] = {32768, 32769, 1};
    static const int32_t zeros[9] = {0};
    contraction c = product();
    c.m.d.strides[1] = 1;
    refused("9: the strides of D do not keep its entries apart", c, 9);
    c.d_count = WORDS - 2;
    refused("8: an entry outside its slice", c, 8);
    c.m.a = nezgrak_layout_of("xyz", large, zeros, 3, 0);
    refused("7: the product of all extents", c, 7);
    c.m.b.extents[0] = c.m.b.extents[1] = 4;
    refused("6: a letter with two extents", c, 6);
    c.m.b.strides[1] = 16777217;
    refused("5: a stride's size", c, 5);
    c.m.a = nezgrak_layout_of("xy", past, zeros, 2, 0);
    refused("4: an extent of 65,537", c, 4);
    c.m.b.letters[1] = '1';
    refused("3: not a letter, of B where A's extent is 65,537", c, 3);
    c.m.d.stride_count = 1;
    refused("2: fewer strides than letters", c, 2);
    c.m.a = nezgrak_layout_of("abcdefghi", ones, zeros, 9, 0);
    refused("1: nine letters", c, 1);
}

int main(void)
{
    check_one_axis();
    check_results();
    check_empty_layers();
    check_refusals();
    return failed != 0;
}

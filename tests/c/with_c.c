/* What the calls with C leave. Prints a line for each check; the status is 0 where all hold. */
#include "with_c.h"

static void check_strides(void)
{
    contraction x = product();
    leaves("C with D's layout", x, (const uint32_t[]){2011, 4014, 6008, 8010});
    fill(x.at.c_words, WORDS, 100, 100);
    leaves("C with D's layout and old words: as without C", x, (const uint32_t[]){211, 414, 608, 810});
    leaves("C with strides of its own", with_c_square("ij", 2, 1, 0), (const uint32_t[]){2011, 6014, 4008, 8010});
    leaves("C with letters in another order", with_c_square("ji", 2, 1, 0), (const uint32_t[]){2011, 4014, 6008, 8010});
    x = with_c_square("ji", 0, 3, 0);
    leaves("C with a stride of 0, of D's second letter", x, (const uint32_t[]){2011, 8014, 2008, 8010});
    x = with_c_square("ij", 0, 1, 0);
    x.c_count = 2;
    leaves("C with a stride of 0, of D's first letter", x, (const uint32_t[]){2011, 2014, 4008, 4010});
    x = with_c_square("ij", 0, 0, 0);
    x.c_count = 1;
    leaves("C with strides of 0 in one word", x, (const uint32_t[]){2011, 2014, 2008, 2010});
    leaves("C with entries that meet: 9 is not asked of it", with_c_square("ij", 1, 1, 1), (const uint32_t[]){4011, 6014, 6008, 8010});
    leaves("C counted down from its base", with_c_square("ij", -1, -2, 3), (const uint32_t[]){8011, 6014, 4008, 2010});
    leaves("C counted down by one letter and up by the other", with_c_square("ij", -2, 1, 2), (const uint32_t[]){6011, 2014, 8008, 4010});
}

static void check_factors(void)
{
    contraction x = product();
    x.beta = 0;
    leaves("beta 0: neither C nor the old words", x, (const uint32_t[]){11, 14, 8, 10});
    x.beta = UINT32_MAX;
    leaves("beta 4,294,967,295: words wrap", x, (const uint32_t[]){11u - 1000, 14u - 2000, 8u - 3000, 10u - 4000});
    x = product();
    x.alpha = 3;
    leaves("alpha 3: the sum thrice, and C as it is", x, (const uint32_t[]){2033, 4042, 6024, 8030});
    x = product();
    fill(x.at.c_words, WORDS, UINT32_MAX, 0);
    leaves("words of C wrap", x, (const uint32_t[]){9, 12, 6, 8});
}

/* Letters that C or D repeats: one label, whose stride is the sum of its strides. */
static void check_diagonals(void)
{
    contraction x = with_c("iji", (const uint32_t[]){2, 2, 2}, (const int32_t[]){100000, 1, -99998}, 0);
    leaves("C repeats a letter of D", x, (const uint32_t[]){2011, 6014, 4008, 8010});
    x = with_c_square("ii", 1, 2, 0);
    x.at.m.a = nezgrak_layout_of("i", (const uint32_t[]){2}, (const int32_t[]){3}, 1, 0);
    x.at.m.b = nezgrak_layout_scalar(2);
    x.at.m.d = nezgrak_layout_of("i", (const uint32_t[]){2}, (const int32_t[]){1}, 1, 1);
    leaves("the diagonal of C into a D of one letter", x, (const uint32_t[]){100, 2002, 8008, 400});
    x.at.m.d = with_c_square("ii", 1, 2, 0).at.c;
    leaves("the diagonal of C into that of D", x, (const uint32_t[]){2002, 200, 300, 8008});
    x.at.c = nezgrak_layout_of("i", (const uint32_t[]){2}, (const int32_t[]){-1}, 1, 1);
    leaves("a C of one letter into the diagonal of D", x, (const uint32_t[]){4002, 200, 300, 2008});
}

/* D's letters as rows, by themselves or beside A and B, as columns and as a batch, and no letters. C's two letters do not fold into one as D's do. */
static void check_groups(void)
{
    contraction x = with_c_square("ij", 2, 1, 0);
    const nezgrak_layout two = nezgrak_layout_scalar(2), square = x.at.m.d, four = {{'i'}, {4}, {1}, 1, 1, 1, 0};
    x.at.m.a = square;
    x.at.m.b = two;
    leaves("two row letters", x, (const uint32_t[]){2002, 6004, 4006, 8008});
    x.at.m.a = two;
    leaves("two letters that only C and D have", x, (const uint32_t[]){2006, 6006, 4006, 8006});
    x.at.m.b = square;
    leaves("two column letters", x, (const uint32_t[]){2003, 6000, 4006, 8000});
    x = with_c("i", (const uint32_t[]){4}, (const int32_t[]){-1}, 3);
    x.at.m.a = x.at.m.b = x.at.m.d = four;
    leaves("one batch letter", x, (const uint32_t[]){8001, 6000, 4006, 2000});
    x.at.m.a = x.at.m.d = x.at.c = nezgrak_layout_scalar(3);
    x.at.m.b = two;
    leaves("no letters: the word of C at its base", x, (const uint32_t[]){100, 200, 300, 8008});
}

/* Extents of 0: k in A and B, so that no term is left, and i in A, C and D, so that C and D have no entries. */
static void check_empty_layers(void)
{
    contraction x = with_c_square("ij", 2, 1, 0);
    x.at.m.a.extents[1] = x.at.m.b.extents[0] = 0;
    leaves("a sum over no values is 0: beta * C's entry", x, (const uint32_t[]){2000, 6000, 4000, 8000});
    x = product();
    x.at.m.a.extents[0] = x.at.c.extents[0] = x.at.m.d.extents[0] = 0;
    x.at.c.base = 16777216;
    x.c_count = 0;
    leaves("no entry of C: no word and a base outside pass, and nothing changes", x, x.at.m.d_words + GUARD);
    x.done = 0;
    check("13: no output index where there are no tiles", refuses(ask, x, 13));
    x.at.c.base++;
    refused("5: a base of C, also without entries", x, 5);
    x = product();
    x.at.c.extents[0] = 0;
    refused("6: an extent of 0 in C alone", x, 6);
}

/* A call from `done` on: the new count, these words in D, these at the beginning of work, and nothing else changed. */
static void runs(const char *name, contraction x, uint64_t done_after, uint32_t complete, const uint32_t *d, const uint32_t *packed)
{
    lent expected = x.at;
    memcpy(expected.m.d_words + GUARD, d, WORDS * sizeof *d);
    memcpy(expected.work + GUARD, packed, 4 * sizeof *packed);
    expected.done_after = done_after;
    expected.complete = complete;
    check(name, run(&x) == 0 && same(&expected, &x.at));
}

static void check_calls(void)
{
    contraction x = with_c_square("ij", 2, 1, 0);
    const uint32_t old[] = {100, 200, 300, 400}, unchanged[] = {50, 51, 52, 53};
    const uint32_t three[] = {2011, 6002, 300, 400}, last_of_three[] = {5, 0, 2, 0};
    const uint32_t all[] = {2011, 6014, 4008, 8010}, last_of_all[] = {6, 0, 1, 0};
    x.done = x.budget = 0;
    runs("a budget of 0 runs nothing", x, 0, 0, old, unchanged);
    x.budget = 3;
    runs("three tiles of eight: a word that is not reached keeps its old value", x, 3, 0, three, last_of_three);
    x.done = 2;
    x.budget = 2;
    runs("a later panel adds to what is there, and nothing of C", x, 4, 0, (const uint32_t[]){110, 212, 300, 400}, (const uint32_t[]){6, 0, 2, 0});
    x.done = 3;
    x.budget = UINT64_MAX;
    memcpy(x.at.m.d_words + GUARD, three, sizeof three);
    runs("the rest after three tiles", x, 8, 1, all, last_of_all);
    x.done = 8;
    memcpy(x.at.m.d_words + GUARD, all, sizeof all);
    runs("nothing is left after the last tile", x, 8, 1, all, unchanged);
}

static void check_states(void)
{
    static const uint32_t states[9][4] = {{0, 0, 0, 0}, {1, 0, 0, 0}, {1, 1, 0, 0}, {2, 1, 0, 0}, {2, 2, 0, 0},
                                          {2, 2, 1, 0}, {2, 2, 1, 1}, {2, 2, 2, 1}, {2, 2, 2, 2}};
    int hold = 1;
    for (unsigned n = 0; n < 36; n++) {
        contraction x = with_c_square("ji", 0, 1, 0);
        x.done = n / 4;
        x.row = n % 2;
        x.column = n / 2 % 2;
        lent expected = x.at;
        expected.state = states[x.done][n % 4];
        hold = hold && ask(&x) == 0 && same(&expected, &x.at);
    }
    check("the state of each word after each tile", hold);
}

static void check_shared(void)
{
    const nezgrak_layout i = nezgrak_layout_of("i", (const uint32_t[]){2}, (const int32_t[]){1}, 1, 0);
    const uint32_t a[] = {2, 3};
    uint32_t d[] = {100, 200};
    uint32_t found = nezgrak_contract_with_c(&i, a, 2, &i, a, 2, &i, a, 2, &i, d, 2, 1, 10);
    check("one layout for all tensors, and the same words for A, B and C", found == 0 && d[0] == 24 && d[1] == 39);
    found = nezgrak_contract_with_c(&i, a, 2, &i, a, 2, &i, i.extents, 2, &i, d, 2, 1, 10);
    check("the words of a layout for C", found == 0 && d[0] == 24 && d[1] == 9);
}

int main(void)
{
    check_strides();
    check_factors();
    check_diagonals();
    check_groups();
    check_empty_layers();
    check_calls();
    check_states();
    check_shared();
    return failed != 0;
}

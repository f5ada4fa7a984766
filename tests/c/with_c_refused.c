/* What the calls with C refuse, and in which order. Prints a line for each check; the status is 0 where all hold. */
#include "with_c.h"
#include <stdlib.h>

/* Question 30, of a C that passes every other one. */
static void check_letters(void)
{
    static const uint32_t twos[4] = {2, 2, 2, 2}, depth[3] = {2, 2, 3};
    static const int32_t zeros[4] = {0};
    refused("30: C lacks D's second letter", with_c("i", twos, zeros, 0), 30);
    refused("30: C repeats D's first letter and lacks its second", with_c("ii", twos, zeros, 0), 30);
    refused("30: C has no letters", with_c("", twos, zeros, 0), 30);
    refused("30: C has another letter in place of D's", with_c("ix", twos, zeros, 0), 30);
    refused("30: C has D's letters in the other case", with_c("IJ", twos, zeros, 0), 30);
    refused("30: C has one letter more than D", with_c("xij", twos, zeros, 0), 30);
    refused("30: C has a letter of A and B too", with_c("ijk", depth, zeros, 0), 30);
    contraction x = with_c("i", twos, zeros, 0);
    x.at.m.d = nezgrak_layout_scalar(0);
    refused("30: C has a letter, and D none", x, 30);
}

/* Makes a layout of two letters fail one of the first five questions. */
static void fail(nezgrak_layout *layout, uint32_t number)
{
    switch (number) {
    case 1: layout->letter_count = layout->extent_count = layout->stride_count = 9; break;
    case 2: layout->stride_count = 1; break;
    case 3: layout->letters[1] = '1'; break;
    case 4: layout->extents[1] = 65537; break;
    default: layout->strides[1] = 16777217; break;
    }
}

/* C fails one question, and A, B or D another: the smaller number answers. */
static void check_first_five(void)
{
    static const char *names[5] = {
        "1: nine letters of C", "2: fewer strides of C than letters", "3: not a letter, of C", "4: an extent of C of 65,537", "5: a stride's size, of C"};
    for (uint32_t number = 1; number <= 5; number++) {
        contraction x = product();
        fail(&x.at.c, number);
        int hold = all_refuse(x, number);
        for (uint32_t n = 0; n < 15; n++) {
            contraction y = x;
            uint32_t other = n / 3 + 1;
            fail(n % 3 == 0 ? &y.at.m.a : n % 3 == 1 ? &y.at.m.b : &y.at.m.d, other);
            hold = hold && all_refuse(y, other < number ? other : number);
        }
        check(names[number - 1], hold);
    }
}

static void check_layout_words(void)
{
    contraction x = product();
    for (int i = 2; i < 8; i++) {
        x.at.c.letters[i] = x.at.c.extents[i] = UINT32_MAX;
        x.at.c.strides[i] = -1;
    }
    leaves("words of C's layout past its counts mean nothing", x, (const uint32_t[]){2011, 4014, 6008, 8010});
    x.at.c.letters[0] += 256;
    refused("3: a letter of C above 255 is not its low byte", x, 3);
    x.at.c.extent_count = 9;
    refused("2: nine extents of C", x, 2);
    x.at.c.letter_count = UINT32_MAX;
    refused("1: 4,294,967,295 letters of C", x, 1);
}

/* From the last question to the first, each with all that follow it failing. */
static void check_order(void)
{
    contraction x = product();
    x.row = 2;
    check("13: a row count outside its group", refuses(ask, x, 13));
    x.done = 9;
    check("12: more tiles done than there are", refuses(run, x, 12) && refuses(ask, x, 12));
    x.work_count = 3;
    check("11: one word of work too few, not asked of a state", refuses(run, x, 11) && refuses(ask, x, 12));
    x.depth = 129;
    check("10: a depth over 128", refuses(run, x, 10) && refuses(ask, x, 10));
    x.at.m.d.strides[1] = 1;
    refused("9: the strides of D", x, 9);
    x.c_count = WORDS - 1;
    refused("8: the last entry of C outside its slice", x, 8);
    x.at.m.a = nezgrak_layout_of("xy", (const uint32_t[]){32768, 32769}, (const int32_t[]){0, 0}, 2, 0);
    refused("7: the product of all extents", x, 7);
    x.at.c.letters[1] = 'z';
    refused("30: before 7, 8 and 9", x, 30);
    x.at.c.extents[0] = 3;
    refused("6: an extent of C that is not D's, before 30", x, 6);
    x.at.c.base = 16777217;
    refused("5: a base of C above 16,777,216", x, 5);
}

static void check_extents(void)
{
    contraction x = with_c("jik", (const uint32_t[]){2, 2, 4}, (const int32_t[]){0, 0, 0}, 0);
    refused("6: an extent of C that is not A's and B's, before 30", x, 6);
    refused("6: two extents of one letter of C", with_c("iij", (const uint32_t[]){2, 1, 2}, (const int32_t[]){0, 0, 0}, 0), 6);
    x = with_c("ijxy", (const uint32_t[]){2, 2, 32768, 32769}, (const int32_t[]){0, 0, 0, 0}, 0);
    refused("30: before 7 where C has the large extents", x, 30);
    x = product();
    x.at.m.a = nezgrak_layout_of("ix", (const uint32_t[]){2, 65536}, (const int32_t[]){1, 0}, 2, 0);
    x.at.m.b = nezgrak_layout_of("yj", (const uint32_t[]){4096, 2}, (const int32_t[]){0, 1}, 2, 0);
    check("7: a product of 1,073,741,824, to which C adds nothing", ask(&x) == 0);
}

static void check_slices(void)
{
    refused("8: an entry of C below its slice", with_c_square("ij", -1, -2, 2), 8);
    refused("8: an entry of C below its slice, its last one inside", with_c_square("ij", -1, 1, 0), 8);
    refused("8: the base of C outside its slice", with_c_square("ij", 0, 0, WORDS), 8);
    contraction x = with_c_square("ij", 0, 0, 0);
    x.c_count = 0;
    refused("8: a slice of C without words", x, 8);
    x = with_c("iji", (const uint32_t[]){2, 2, 2}, (const int32_t[]){1, 1, 2}, 0);
    refused("8: the diagonal of C outside its slice", x, 8);
}

/* The largest slice, and one word more. */
static void check_large_slice(void)
{
    const uint32_t most = 16777216;
    contraction x = with_c_square("ij", 0, 0, most - 1);
    uint32_t *words = calloc(most + 1, sizeof *words);
    if (words == NULL) {
        check("there is room for 16,777,217 words", 0);
        return;
    }
    words[most - 1] = 9;
    x.c = words;
    x.c_count = most;
    leaves("the last word of 16,777,216", x, (const uint32_t[]){29, 32, 26, 28});
    x.c_count = most + 1;
    refused("5: a slice of C with 16,777,217 words", x, 5);
    free(words);
}

int main(void)
{
    check_letters();
    check_first_five();
    check_layout_words();
    check_order();
    check_extents();
    check_slices();
    check_large_slice();
    return failed != 0;
}

/* What the words of a layout mean, by all three calls, also what no sound layout has. Prints a line for each check; the status is 0 where all hold. */
#include "check.h"

enum { WORK = 4, DIFFER = 99 };

static const uint32_t product[WORDS] = {211, 414, 608, 810};

static int same_layouts(const matrices *x, const matrices *y)
{
    return memcmp(&x->a, &y->a, sizeof x->a) == 0 && memcmp(&x->b, &y->b, sizeof x->b) == 0 && memcmp(&x->d, &y->d, sizeof x->d) == 0;
}

/* Makes each call: the plain one, all eight tiles, and the state after them. Gives their answer where they agree and leave these words in D, or where
 * they refuse and change nothing. */
static uint32_t answer(const matrices *m, const uint32_t *words)
{
    matrices plain = *m, tiled = *m, asked = *m, expected = *m;
    uint32_t work[WORK] = {9, 9, 9, 9}, complete = 77, state = 77;
    uint64_t done = 77;
    uint32_t found = nezgrak_contract(
        &plain.a, plain.a_words, 6, &plain.b, plain.b_words, 6, &plain.d, plain.d_words + GUARD, WORDS, 1, 2);
    uint32_t ran = nezgrak_run_tiles(
        &tiled.a, tiled.a_words, 6, &tiled.b, tiled.b_words, 6, &tiled.d, tiled.d_words + GUARD, WORDS, 1, 2, 1, 1, 2, work, WORK,
        0, 8, &done, &complete);
    uint32_t said = nezgrak_state(
        &asked.a, asked.a_words, 6, &asked.b, asked.b_words, 6, &asked.d, asked.d_words + GUARD, WORDS, 1, 2, 1, 1, 2,
        8, 0, 1, 1, &state);
    int refused = found != 0 && done == 0 && complete == 0 && state == 77 && work[0] == 9;
    int accepted = found == 0 && done == 8 && complete == 1 && state == NEZGRAK_FINAL;
    if (accepted) {
        memcpy(expected.d_words + GUARD, words, WORDS * sizeof *words);
    }
    int kept = same_layouts(&plain, m) && same_layouts(&tiled, m) && same_layouts(&asked, m) && same_words(&asked, m);
    int right = same_words(&plain, &expected) && same_words(&tiled, &expected);
    return (refused || accepted) && ran == found && said == found && kept && right ? found : DIFFER;
}

/* A change of one layout, made to A's, B's and D's in turn: does each call give this answer? */
static int each(void (*change)(nezgrak_layout *, uint32_t), uint32_t value, uint32_t expected)
{
    int hold = 1;
    for (int which = 0; which < 3; which++) {
        matrices m = two_by_two();
        change(which == 0 ? &m.a : which == 1 ? &m.b : &m.d, value);
        hold = hold && answer(&m, product) == expected;
    }
    return hold;
}

static void set_letter(nezgrak_layout *layout, uint32_t value)
{
    layout->letters[1] = value;
}

static void set_letter_count(nezgrak_layout *layout, uint32_t value)
{
    layout->letter_count = value;
}

static void set_extent_count(nezgrak_layout *layout, uint32_t value)
{
    layout->extent_count = value;
}

static void set_stride_count(nezgrak_layout *layout, uint32_t value)
{
    layout->stride_count = value;
}

static void set_counts(nezgrak_layout *layout, uint32_t value)
{
    layout->letter_count = layout->extent_count = layout->stride_count = value;
}

/* Every word past the counts. */
static void set_rest(nezgrak_layout *layout, uint32_t value)
{
    for (int i = 2; i < 8; i++) {
        layout->letters[i] = layout->extents[i] = value;
        memcpy(&layout->strides[i], &value, sizeof value);
    }
}

/* The same letter by a word above 255: its low byte is what stood there. */
static void raise_letter(nezgrak_layout *layout, uint32_t value)
{
    layout->letters[0] += value;
}

static void check_words(void)
{
    matrices m = two_by_two();
    uint32_t words[28] = {'i', 'k', 0, 0, 0, 0, 0, 0, 2, 3, 0, 0, 0, 0, 0, 0, UINT32_MAX, 2, 0, 0, 0, 0, 0, 0, 2, 2, 2, 1};
    m.a.strides[0] = -1;
    m.a.base = 1;
    check("a layout is its 28 words, strides in two's complement", memcmp(&m.a, words, sizeof words) == 0);
    check("and is read as these", answer(&m, (const uint32_t[]){214, 411, 610, 808}) == 0);
    check("words past a count mean nothing", each(set_rest, UINT32_MAX, 0) && each(set_rest, 256, 0) && each(set_rest, 'i', 0));
}

static void check_letters(void)
{
    check("3: a letter 255", each(set_letter, 255, 3));
    check("3: a letter 256", each(set_letter, 256, 3));
    check("3: a letter 4,294,967,295", each(set_letter, UINT32_MAX, 3));
    check("3: a letter above 255 is not its low byte", each(raise_letter, 256, 3) && each(raise_letter, 1u << 31, 3));
    matrices m = two_by_two();
    m.b.letters[0] += 256;
    m.a.extents[0] = 65537;
    check("3 of B before 4 of A", answer(&m, product) == 3);
    m.d.stride_count = 1;
    check("2 of D before 3 of B", answer(&m, product) == 2);
    m.a.letter_count = 9;
    check("1 of A before 2 of D", answer(&m, product) == 1);
}

static void check_counts(void)
{
    check("1: nine letters", each(set_letter_count, 9, 1) && each(set_counts, 9, 1));
    check("1: 4,294,967,295 letters", each(set_letter_count, UINT32_MAX, 1) && each(set_counts, UINT32_MAX, 1));
    check("1: a count is not its low byte, or half", each(set_counts, 258, 1) && each(set_counts, 65538, 1) && each(set_counts, (1u << 31) + 2, 1));
    check("2: nine extents", each(set_extent_count, 9, 2));
    check("2: 4,294,967,295 extents", each(set_extent_count, UINT32_MAX, 2) && each(set_extent_count, 65538, 2));
    check("2: nine strides", each(set_stride_count, 9, 2));
    check("2: 4,294,967,295 strides", each(set_stride_count, UINT32_MAX, 2) && each(set_stride_count, 65538, 2));
    check("2: one letter, extent or stride too few", each(set_letter_count, 1, 2) && each(set_extent_count, 1, 2) && each(set_stride_count, 1, 2));
}

static void check_made(void)
{
    static const uint32_t extents[9] = {1, 2, 3, 4, 5, 6, 7, 8, 9};
    static const int32_t strides[9] = {-1, -2, -3, -4, -5, -6, -7, -8, -9};
    const nezgrak_layout two = {{'a', 225}, {1, 2}, {-1, -2}, 2, 2, 2, 7}, none = {{0}, {0}, {0}, 0, 0, 0, 5};
    nezgrak_layout made = nezgrak_layout_of("a\xe1", extents, strides, 2, 7), scalar = nezgrak_layout_scalar(5);
    check("a layout of two axes, with 0 past them", memcmp(&made, &two, sizeof two) == 0 && memcmp(&scalar, &none, sizeof none) == 0);
    made = nezgrak_layout_of("abcdefghi", extents, strides, 9, 0);
    check("of nine axes the first eight and the count", made.letters[7] == 'h' && made.strides[7] == -8 && made.letter_count == 9);
}

/* One layout for all three tensors, lent once. */
static void check_shared(void)
{
    const nezgrak_layout i = nezgrak_layout_of("i", (const uint32_t[]){2}, (const int32_t[]){1}, 1, 0);
    const uint32_t a[] = {2, 3};
    uint32_t d[] = {100, 200};
    check("one layout for all tensors", nezgrak_contract(&i, a, 2, &i, a, 2, &i, d, 2, 1, 1) == 0 && d[0] == 104 && d[1] == 209);
}

int main(void)
{
    check_words();
    check_letters();
    check_counts();
    check_made();
    check_shared();
    return failed != 0;
}

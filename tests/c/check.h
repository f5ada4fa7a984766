/* What the C tests share: a line for each check, and a product of two matrices with guard words around its lent slices. */
#include <nezgrak.h>
#include <stdint.h>
#include <stdio.h>
#include <string.h>

enum { GUARD = 4, WORDS = 4 };

static const uint32_t guard = 0xa5c30f69;
static int failed = 0;

static inline void check(const char *name, int holds)
{
    printf("%s %s\n", holds ? "ok" : "not ok", name);
    failed += !holds;
}

/* Puts guard words on both sides of a lent slice of `count` words, and first, first + step, .. into it. */
static inline void fill(uint32_t *words, int count, uint32_t first, uint32_t step)
{
    for (int i = 0; i < GUARD + count + GUARD; i++) {
        words[i] = i < GUARD || i >= GUARD + count ? guard : first + (uint32_t)(i - GUARD) * step;
    }
}

/* A(i,k) * B(k,j) into D(i,j), with guard words on both sides of D. */
typedef struct {
    nezgrak_layout a, b, d;
    uint32_t a_words[6], b_words[6], d_words[GUARD + WORDS + GUARD];
} matrices;

/* The words of the examples: D is two by two, A and B have a depth of three. */
static inline matrices two_by_two(void)
{
    static const uint32_t extents[3][2] = {{2, 3}, {3, 2}, {2, 2}};
    static const int32_t strides[3][2] = {{1, 2}, {1, 3}, {1, 2}};
    matrices m = {
        nezgrak_layout_of("ik", extents[0], strides[0], 2, 0),
        nezgrak_layout_of("kj", extents[1], strides[1], 2, 0),
        nezgrak_layout_of("ij", extents[2], strides[2], 2, 0),
        {1, 2, 3, 4, 5, 6}, {1, 0, 2, 0, 1, 1}, {0}};
    fill(m.d_words, WORDS, 100, 100);
    return m;
}

static inline int same_words(const matrices *x, const matrices *y)
{
    return memcmp(x->a_words, y->a_words, sizeof x->a_words) == 0 && memcmp(x->b_words, y->b_words, sizeof x->b_words) == 0 &&
           memcmp(x->d_words, y->d_words, sizeof x->d_words) == 0;
}

/* Nezgrak: a tensor contraction engine for 32-bit words, for C11 and C++11. Link libnezgrak.a (x86-64). */
#ifndef NEZGRAK_H
#define NEZGRAK_H

#include <stddef.h>
#include <stdint.h>

#ifdef __cplusplus
extern "C" {
#endif

/* A tensor is a slice of words that the caller lends, with a layout: up to 8 letters (its labels), an extent and a signed stride
 * for each, and a base. The entry at index (i, j, ..) is the word at base + i * stride + j * stride' + .. of the slice. A letter
 * that a tensor repeats is one label whose stride is the sum of its strides. No letters means one entry, at the base;
 * with an extent 0 there are no entries.
 *
 * Any 28 words can be handed in, and a call asks its questions of them. Words past a count mean nothing. The three counts of a
 * sound layout are equal (question 2) and at most 8 (question 1). A letter is its ASCII code; a word above 255 is read as letter 0,
 * which question 3 refuses.
 */
typedef struct nezgrak_layout {
    uint32_t letters[8];
    uint32_t extents[8];
    int32_t strides[8];
    uint32_t letter_count;
    uint32_t extent_count;
    uint32_t stride_count;
    uint32_t base;
} nezgrak_layout;

#ifdef __cplusplus
static_assert(sizeof(nezgrak_layout) == 28 * sizeof(uint32_t), "a layout has 28 words");
#else
_Static_assert(sizeof(nezgrak_layout) == 28 * sizeof(uint32_t), "a layout has 28 words");
#endif

/* The layout of `rank` letters, extents and strides, which are copied. */
static inline nezgrak_layout nezgrak_layout_of(
    const char *letters, const uint32_t *extents, const int32_t *strides, uint32_t rank, uint32_t base)
{
    nezgrak_layout layout;
    for (uint32_t i = 0; i < 8; i++) {
        layout.letters[i] = i < rank ? (unsigned char)letters[i] : 0;
        layout.extents[i] = i < rank ? extents[i] : 0;
        layout.strides[i] = i < rank ? strides[i] : 0;
    }
    layout.letter_count = rank;
    layout.extent_count = rank;
    layout.stride_count = rank;
    layout.base = base;
    return layout;
}

/* The layout without letters: one entry, at the base. */
static inline nezgrak_layout nezgrak_layout_scalar(uint32_t base)
{
    return nezgrak_layout_of(NULL, NULL, NULL, 0, base);
}

/* Contracts A and B into D. Each word that D's layout addresses becomes
 *
 *     alpha * (sum, over every label that D lacks, of A's entry * B's entry) + beta * old word    modulo 2^32.
 *
 * A tensor that lacks a label has the same entry at each of its values. A sum over no values is 0: where a label that D lacks has
 * extent 0, each word becomes beta * old word. The words of D that its layout does not address keep their values, all of them where
 * D has an extent 0. A, B and the layouts are only read.
 *
 * Returns 0, or the number of the first question whose answer is no. D is then unchanged. Each question is put to A, B and D
 * before the next one is asked:
 *
 *     1  Has each tensor at most 8 letters?
 *     2  Are there as many extents and as many strides as letters?
 *     3  Is every letter A to Z or a to z?
 *     4  Is every extent 0 to 65,536?
 *     5  Is every stride from -16,777,216 to 16,777,216, every base at most 16,777,216, every tensor's slice at most
 *        16,777,216 words?
 *     6  Has a letter the same extent wherever it occurs?
 *     7  Is the product of the extents of all different labels at most 1,073,741,824?
 *     8  Does every entry of each tensor fall inside its slice?
 *     9  For each D label of extent above 1, does its stride's size exceed the sum of (extent - 1) * stride size over the
 *        other D labels whose stride size is no greater? (Strides summed per letter.)
 *
 * In the product of question 7 an extent 0 counts as 1. A tensor with an extent 0 has no entries: it passes 8 whatever its slice and
 * base, and as D passes 9.
 *
 * The caller has to see to this, and to nothing else:
 *
 *   - Each pointer to words is followed by a count, and points to that many words that can be read, for d also written. It is
 *     aligned and not null, also where the count is 0. Each layout can be read, and is aligned and not null.
 *   - d shares no word with a, b or a layout. Those may share words with each other: one layout can serve for several tensors.
 *   - During the call no other thread writes to any of them, or reads d.
 */
uint32_t nezgrak_contract(
    const nezgrak_layout *a_layout, const uint32_t *a, size_t a_count,
    const nezgrak_layout *b_layout, const uint32_t *b, size_t b_count,
    const nezgrak_layout *d_layout, uint32_t *d, size_t d_count,
    uint32_t alpha, uint32_t beta);

/* Runs tiles of the same contraction: the smaller of the budget and what is left after `done` tiles.
 *
 * The labels form four groups: batch (in A, B and D), column (in B and D, not A), row (every other label of D) and depth (every
 * label not in D). Batch, row and column labels stand in the order of D's letters, depth labels in that of A's, then B's. A group
 * counts through the values of its labels, the first label fastest, up to its size, the product of their extents.
 *
 * A tile is rows * cols * depth counts of the row, column and depth group, fewer at the edge. With MB, NB and KB the sizes of these
 * groups divided by the tile's and rounded up, but KB 1 where the depth size is 0, the tile of batch count h, column block c, panel
 * p and row block r has the number ((h * NB + c) * KB + p) * MB + r; the total is batch size * NB * KB * MB, and so 0 where D has an
 * extent 0. Tiles run in the order of their numbers. Panel 0 puts beta * old word + alpha * its part of the sum, later panels add
 * alpha * their part: after the last tile D is what nezgrak_contract leaves.
 *
 * `done` is the count of tiles done before, 0 for a new contraction. Between calls everything but the budget and work stays the
 * same. *done_after becomes the new count, and *complete 1 where that is the total, else 0.
 *
 * work, where a tile ran, holds the blocks of the last one: row r and depth d of A at r + rows * d, and from rows * depth on
 * column c and depth d of B at c + cols * d; places past an edge hold 0. Its other words are unchanged, and all of them where no
 * tile ran.
 *
 * Returns 0, or the number of the first question whose answer is no: 1 to 9 of nezgrak_contract, then
 *
 *     10  Are rows and cols 1 to 64 and depth 1 to 128?
 *     11  Has the work slice at least rows * depth + depth * cols words?
 *     12  Is the count of tiles done at most the total?
 *
 * D and work are then unchanged, *done_after is done and *complete is 0.
 *
 * The caller has to see to what nezgrak_contract says, and to this: work points to work_count words, and done_after and complete
 * each to one value, that can be read and written; they are aligned and not null; d, work, *done_after and *complete share no word
 * with each other or with anything else that is passed, and no other thread reads or writes them during the call.
 */
uint32_t nezgrak_run_tiles(
    const nezgrak_layout *a_layout, const uint32_t *a, size_t a_count,
    const nezgrak_layout *b_layout, const uint32_t *b, size_t b_count,
    const nezgrak_layout *d_layout, uint32_t *d, size_t d_count,
    uint32_t alpha, uint32_t beta,
    uint32_t rows, uint32_t cols, uint32_t depth,
    uint32_t *work, size_t work_count,
    uint64_t done, uint64_t budget,
    uint64_t *done_after, uint32_t *complete);

/* What *state becomes. */
enum {
    NEZGRAK_OLD = 0,  /* no panel is done: the word has its old value */
    NEZGRAK_PART = 1, /* some panels are done */
    NEZGRAK_FINAL = 2 /* all panels are done: the word has its result */
};

/* Says how far the word of an output index is after `done` tiles. The index is given by its batch, row and column count.
 *
 * Returns 0, or the number of the first question whose answer is no: 1 to 10 and 12 of nezgrak_run_tiles, then
 *
 *     13  Is each of the three counts of the output index below its group's size?
 *
 * *state is then unchanged. A, B, D and the layouts are only read; of a, b and d only the counts matter. The caller has to see to
 * what nezgrak_contract says, where d is only read too, and to this: state points to one value that can be read and written, is
 * aligned and not null, and shares no word with anything else that is passed; no other thread reads or writes it during the call.
 */
uint32_t nezgrak_state(
    const nezgrak_layout *a_layout, const uint32_t *a, size_t a_count,
    const nezgrak_layout *b_layout, const uint32_t *b, size_t b_count,
    const nezgrak_layout *d_layout, const uint32_t *d, size_t d_count,
    uint32_t alpha, uint32_t beta,
    uint32_t rows, uint32_t cols, uint32_t depth,
    uint64_t done,
    uint64_t batch, uint64_t row, uint64_t column,
    uint32_t *state);

/* Contracts A and B into D as nezgrak_contract does, but with a tensor C in place of D's old words: each word that D's layout
 * addresses becomes
 *
 *     alpha * (sum, over every label that D lacks, of A's entry * B's entry) + beta * C's entry    modulo 2^32.
 *
 * C's entry is the one at the index of D's word. C has D's letters, in any order, and strides and a base of its own. A stride may be
 * 0 and entries may share words; where C repeats a letter, its entries are those of the diagonal, as ever. C is only read.
 *
 * Returns 0, or the number of the first question whose answer is no: 1 to 6 of nezgrak_contract, then
 *
 *     30  Are C's different letters exactly D's?
 *
 * then 7 to 9 of nezgrak_contract. Questions 1 to 6 and 8 are put to C as they are to A, B and D; 9 is not.
 *
 * The caller has to see to what nezgrak_contract says, of c and its layout too: d shares no word with them, but they may share words
 * with a, b and the layouts.
 */
uint32_t nezgrak_contract_with_c(
    const nezgrak_layout *a_layout, const uint32_t *a, size_t a_count,
    const nezgrak_layout *b_layout, const uint32_t *b, size_t b_count,
    const nezgrak_layout *c_layout, const uint32_t *c, size_t c_count,
    const nezgrak_layout *d_layout, uint32_t *d, size_t d_count,
    uint32_t alpha, uint32_t beta);

/* Runs tiles as nezgrak_run_tiles does, of the contraction of nezgrak_contract_with_c: panel 0 puts beta * C's entry in place of
 * beta * old word, later panels add as there, and a word that no panel has reached keeps its old value.
 *
 * Returns 0, or the number of the first question whose answer is no: 1 to 6, 30 and 7 to 9 of nezgrak_contract_with_c,
 * then 10 to 12 of nezgrak_run_tiles. The caller has to see to what these two say.
 */
uint32_t nezgrak_run_tiles_with_c(
    const nezgrak_layout *a_layout, const uint32_t *a, size_t a_count,
    const nezgrak_layout *b_layout, const uint32_t *b, size_t b_count,
    const nezgrak_layout *c_layout, const uint32_t *c, size_t c_count,
    const nezgrak_layout *d_layout, uint32_t *d, size_t d_count,
    uint32_t alpha, uint32_t beta,
    uint32_t rows, uint32_t cols, uint32_t depth,
    uint32_t *work, size_t work_count,
    uint64_t done, uint64_t budget,
    uint64_t *done_after, uint32_t *complete);

/* Says what nezgrak_state says, of the contraction of nezgrak_contract_with_c. Of c too only the count matters.
 *
 * Returns 0, or the number of the first question whose answer is no: 1 to 6, 30 and 7 to 9 of nezgrak_contract_with_c,
 * then 10, 12 and 13 of nezgrak_state. The caller has to see to what these two say.
 */
uint32_t nezgrak_state_with_c(
    const nezgrak_layout *a_layout, const uint32_t *a, size_t a_count,
    const nezgrak_layout *b_layout, const uint32_t *b, size_t b_count,
    const nezgrak_layout *c_layout, const uint32_t *c, size_t c_count,
    const nezgrak_layout *d_layout, const uint32_t *d, size_t d_count,
    uint32_t alpha, uint32_t beta,
    uint32_t rows, uint32_t cols, uint32_t depth,
    uint64_t done,
    uint64_t batch, uint64_t row, uint64_t column,
    uint32_t *state);

/* Finds by how many samples the recording X is later than the recording Y, up to a greatest lag L. Both have n samples. The score of
 * a lag l is
 *
 *     the sum of x[t + l] * y[t] for t from 0 to n - L - 1,
 *
 * exact, as a sum of whole numbers. *lag becomes the lag from 0 to L with the greatest score, the smallest such lag on a tie, and
 * *score becomes its score. A sample is a word read as signed, in two's complement: an array of int32_t can be passed by a cast of
 * its pointer. X and Y are only read.
 *
 * Returns 0, or the number of the first question whose answer is no:
 *
 *     31  Are the lengths of both recordings the same, is the greatest lag at most 64, and is the length less the greatest lag
 *        1 to 256?
 *     32  Is every sample of both recordings from -2,048 to 2,047?
 *
 * *lag and *score are then unchanged. 32 is asked of the last L samples of Y too, which no score uses.
 *
 * The caller has to see to this, and to nothing else:
 *
 *   - x and y are each followed by a count, and point to that many words that can be read. They are aligned and not null, also where
 *     the count is 0. They may share words: a recording can be compared with itself.
 *   - lag and score each point to one value that can be read and written. They are aligned and not null, and share no word with each
 *     other or with x or y.
 *   - During the call no other thread writes to any of them, or reads *lag or *score.
 */
uint32_t nezgrak_delay(
    const uint32_t *x, size_t x_count,
    const uint32_t *y, size_t y_count,
    uint64_t greatest_lag,
    uint64_t *lag, int64_t *score);

#ifdef __cplusplus
}
#endif

#endif

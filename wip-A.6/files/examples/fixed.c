/* Weights with 7 fraction bits: D(i,j) = D(i,j) + sum over k of A(i,k) * B(k,j) / 2^7, the quotient rounded. Three tiles, then the rest. Prints D's words and sums. */
#include <inttypes.h>
#include <nezgrak.h>
#include <stdio.h>

enum { ROWS = 1, COLS = 1, DEPTH = 2, WORK = ROWS * DEPTH + DEPTH * COLS, FRACTION_BITS = 7 };

int main(void)
{
    /* The weights are 0.5, -1 and 0.25 for one species, and 1.5, 0.125 and -0.375 for the other. */
    const int32_t a[] = {9, 4, 6, -5, 2, 7}, weights[] = {64, -128, 32, 192, 16, -48};
    int32_t d[] = {10, 20, 30, 40};
    int64_t sums[4] = {0};
    uint32_t work[WORK], complete = 0, refused = 0;
    uint64_t budgets[] = {3, UINT64_MAX}, done = 0;
    nezgrak_layout ik = nezgrak_layout_of("ik", (uint32_t[]){2, 3}, (int32_t[]){1, 2}, 2, 0);
    nezgrak_layout kj = nezgrak_layout_of("kj", (uint32_t[]){3, 2}, (int32_t[]){1, 3}, 2, 0);
    nezgrak_layout ij = nezgrak_layout_of("ij", (uint32_t[]){2, 2}, (int32_t[]){1, 2}, 2, 0);
    for (int call = 0; call < 2 && !refused; call++) {
        refused = nezgrak_run_tiles_fixed(
            &ik, (const uint32_t *)a, 6, &kj, (const uint32_t *)weights, 6, &ij, (uint32_t *)d, 4, FRACTION_BITS,
            ROWS, COLS, DEPTH, work, WORK, sums, 4, done, budgets[call], &done, &complete);
        printf("%u tiles done%s:", (unsigned)done, complete ? ", complete" : "");
        for (unsigned n = 0; n < 4; n++) {
            printf(" %" PRId32 " (sum %" PRId64 ")", d[n], sums[n]);
        }
        printf("\n");
    }
    return (int)refused;
}

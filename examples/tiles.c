/* D(i,j) = sum over k of A(i,k) * B(k,j) + 2 * D(i,j), tile by tile: three tiles, then the rest. Prints D's words and their states. */
#include <nezgrak.h>
#include <stdio.h>

enum { ROWS = 1, COLS = 1, DEPTH = 2, WORK = ROWS * DEPTH + DEPTH * COLS };

int main(void)
{
    const uint32_t a[] = {1, 2, 3, 4, 5, 6}, b[] = {1, 0, 2, 0, 1, 1};
    uint32_t d[] = {100, 200, 300, 400}, work[WORK], complete = 0, state = NEZGRAK_OLD, refused = 0;
    uint64_t budgets[] = {3, UINT64_MAX}, done = 0;
    nezgrak_layout ik = nezgrak_layout_of("ik", (uint32_t[]){2, 3}, (int32_t[]){1, 2}, 2, 0);
    nezgrak_layout kj = nezgrak_layout_of("kj", (uint32_t[]){3, 2}, (int32_t[]){1, 3}, 2, 0);
    nezgrak_layout ij = nezgrak_layout_of("ij", (uint32_t[]){2, 2}, (int32_t[]){1, 2}, 2, 0);
    for (int call = 0; call < 2 && !refused; call++) {
        refused = nezgrak_run_tiles(
            &ik, a, 6, &kj, b, 6, &ij, d, 4, 1, 2, ROWS, COLS, DEPTH, work, WORK, done, budgets[call], &done, &complete);
        printf("%u tiles done%s:", (unsigned)done, complete ? ", complete" : "");
        for (unsigned n = 0; n < 4 && !refused; n++) {
            refused = nezgrak_state(
                &ik, a, 6, &kj, b, 6, &ij, d, 4, 1, 2, ROWS, COLS, DEPTH, done, 0, n % 2, n / 2, &state);
            printf(" %u %s", d[n], state == NEZGRAK_OLD ? "old" : state == NEZGRAK_PART ? "part" : "final");
        }
        printf("\n");
    }
    return (int)refused;
}

/* One noise floor C for two recordings A: D(i,j) = sum over k of A(i,k) * B(k,j) + 2 * C(i,j). C is the same at each time i, by a stride of 0. */
#include <nezgrak.h>
#include <stdio.h>

int main(void)
{
    const uint32_t recordings[2][6] = {{1, 2, 3, 4, 5, 6}, {6, 5, 4, 3, 2, 1}};
    const uint32_t b[] = {1, 0, 2, 0, 1, 1}, c[] = {10, 20};
    uint32_t d[] = {100, 200, 300, 400}, refused = 0;
    nezgrak_layout ik = nezgrak_layout_of("ik", (uint32_t[]){2, 3}, (int32_t[]){1, 2}, 2, 0);
    nezgrak_layout kj = nezgrak_layout_of("kj", (uint32_t[]){3, 2}, (int32_t[]){1, 3}, 2, 0);
    nezgrak_layout c_layout = nezgrak_layout_of("ij", (uint32_t[]){2, 2}, (int32_t[]){0, 1}, 2, 0);
    nezgrak_layout ij = nezgrak_layout_of("ij", (uint32_t[]){2, 2}, (int32_t[]){1, 2}, 2, 0);
    for (int n = 0; n < 2 && !refused; n++) {
        refused = nezgrak_contract_with_c(&ik, recordings[n], 6, &kj, b, 6, &c_layout, c, 2, &ij, d, 4, 1, 2);
        printf("[%u, %u, %u, %u]\n", d[0], d[1], d[2], d[3]);
    }
    return (int)refused;
}

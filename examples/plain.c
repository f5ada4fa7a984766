/* D(i,j) = sum over k of A(i,k) * B(k,j) + 2 * D(i,j), for matrices whose columns lie one after the other. */
#include <nezgrak.h>
#include <stdio.h>

int main(void)
{
    const uint32_t a[] = {1, 2, 3, 4, 5, 6}, b[] = {1, 0, 2, 0, 1, 1};
    uint32_t d[] = {100, 200, 300, 400};
    nezgrak_layout ik = nezgrak_layout_of("ik", (uint32_t[]){2, 3}, (int32_t[]){1, 2}, 2, 0);
    nezgrak_layout kj = nezgrak_layout_of("kj", (uint32_t[]){3, 2}, (int32_t[]){1, 3}, 2, 0);
    nezgrak_layout ij = nezgrak_layout_of("ij", (uint32_t[]){2, 2}, (int32_t[]){1, 2}, 2, 0);
    uint32_t refused = nezgrak_contract(&ik, a, 6, &kj, b, 6, &ij, d, 4, 1, 2);
    printf("[%u, %u, %u, %u]\n", d[0], d[1], d[2], d[3]);
    return (int)refused;
}

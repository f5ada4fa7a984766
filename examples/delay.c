/* Two detectors hear one bat. By how many samples is the recording X later than Y? Lags up to 12 are tried. */
#include <inttypes.h>
#include <nezgrak.h>
#include <stdio.h>

enum { SAMPLES = 32, GREATEST_LAG = 12 };

int main(void)
{
    const int32_t x[SAMPLES] = {-3,   -5,  -2, 3,  -5, -6,  -7,  -2, 7, 5,  2,  6, 33, -70, 60, 57,
                                -114, -46, 86, 80, 8,  -25, -14, 6,  1, -6, -5, 8, 5,  -3,  2,  -4};
    const int32_t y[SAMPLES] = {2,  -4, 4,  -7, -6, 40, -118, 91, 104, -187, -82, 147, 137, 5,  -60, -27,
                                -6, 5,  -7, -5, -1, -7, 4,    -7, -1,  -7,   -4,  1,   5,   -4, -5,  1};
    uint64_t lag = 0;
    int64_t score = 0;
    uint32_t refused =
        nezgrak_delay((const uint32_t *)x, SAMPLES, (const uint32_t *)y, SAMPLES, GREATEST_LAG, &lag, &score);
    printf("X is %" PRIu64 " samples later than Y: score %" PRId64 "\n", lag, score);
    return (int)refused;
}

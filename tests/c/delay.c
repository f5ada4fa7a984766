/* The delay call from C. Prints a line for each check; the status is 0 where all hold. */
#include "check.h"

enum { MOST = 330 };

/* What *lag and *score hold before a call: no half of either is what a call could leave. */
static const uint64_t lag_before = 0x8765432112345678;
static const int64_t score_before = -0x123456789abcdef;

/* All that a call is lent, with guard words around the samples. Nothing lies between the members, so that one comparison sees each word. */
typedef struct {
    uint32_t x[GUARD + MOST + GUARD], y[GUARD + MOST + GUARD];
    uint64_t before_lag, lag, between;
    int64_t score, after_score;
} lent;

_Static_assert(sizeof(lent) == 2 * (GUARD + MOST + GUARD) * sizeof(uint32_t) + 5 * sizeof(uint64_t), "nothing lies between the members");

typedef struct {
    lent at;
    size_t x_count, y_count;
    uint64_t greatest_lag;
} recordings;

/* Two recordings of `count` samples, each x and y. */
static recordings constant(size_t count, int32_t x, int32_t y, uint64_t greatest_lag)
{
    recordings r = {{{0}, {0}, guard, lag_before, guard, score_before, guard}, count, count, greatest_lag};
    fill(r.at.x, (int)count, (uint32_t)x, 0);
    fill(r.at.y, (int)count, (uint32_t)y, 0);
    return r;
}

/* Two recordings with these samples. */
static recordings of(size_t count, const int32_t *x, const int32_t *y, uint64_t greatest_lag)
{
    recordings r = constant(count, 0, 0, greatest_lag);
    for (size_t t = 0; t < count; t++) {
        r.at.x[GUARD + t] = (uint32_t)x[t];
        r.at.y[GUARD + t] = (uint32_t)y[t];
    }
    return r;
}

static uint32_t run(recordings *r)
{
    lent *at = &r->at;
    return nezgrak_delay(at->x + GUARD, r->x_count, at->y + GUARD, r->y_count, r->greatest_lag, &at->lag, &at->score);
}

/* Does the call leave this lag and this score, and nothing else changed? */
static int leaves(recordings r, uint64_t lag, int64_t score)
{
    lent expected = r.at;
    expected.lag = lag;
    expected.score = score;
    return run(&r) == 0 && memcmp(&expected, &r.at, sizeof expected) == 0;
}

static int refuses(recordings r, uint32_t answer)
{
    lent expected = r.at;
    return run(&r) == answer && memcmp(&expected, &r.at, sizeof expected) == 0;
}

static void finds(const char *name, recordings r, uint64_t lag, int64_t score)
{
    check(name, leaves(r, lag, score));
}

static void refused(const char *name, recordings r, uint32_t answer)
{
    check(name, refuses(r, answer));
}

static void check_scores(void)
{
    const int32_t x[] = {1, 2, 3, 4}, down[] = {4, 3, 2, 1}, y[] = {-1, 3, 1000, -1000}, minus[] = {-5, -2, -9, -3}, first[] = {1, 0, 0, 0};
    finds("one sample", constant(1, -3, 5, 0), 0, -15);
    finds("the greatest lag", of(4, x, y, 2), 2, 9);
    finds("lag 0", of(4, down, y, 2), 0, 5);
    finds("a lag between", of(4, minus, first, 3), 1, -2);
    finds("lags up to the greatest lag only", of(4, x, first, 2), 2, 3);
    finds("samples of both signs", of(4, minus, minus, 0), 0, 25 + 4 + 81 + 9);
    finds("a word above 2^31 is a negative sample", constant(2, -1, -1, 1), 0, 1);
    recordings r = of(4, x, y, 2);
    lent *at = &r.at;
    check("a recording with itself", nezgrak_delay(at->x + GUARD, 4, at->x + GUARD, 4, 2, &at->lag, &at->score) == 0 && at->lag == 2 && at->score == 11);
}

static void check_ties(void)
{
    const int32_t some[] = {0, 3, 0, 3, 3, 2}, later[] = {-7, 0, 3, 3, 2, 3}, one[] = {1, 0, 0, 0, 0, 0};
    finds("a tie of all lags", constant(9, 5, 2, 4), 0, 50);
    finds("a tie of all lags at a score of 0", constant(9, 0, 2, 4), 0, 0);
    finds("a tie of all lags at a negative score", constant(9, -5, 2, 4), 0, -50);
    finds("a tie of some lags", of(6, some, one, 5), 1, 3);
    finds("a tie of later lags", of(6, later, one, 5), 2, 3);
}

/* Each greatest lag, with as many terms as there can be and with one: a single sound that X has some samples later. */
static void check_every_lag(void)
{
    int hold = 1;
    for (size_t greatest = 0; greatest <= 64; greatest++) {
        for (size_t lag = 0; lag <= greatest; lag++) {
            recordings longest = constant(greatest + 256, 0, 0, greatest), shortest = constant(greatest + 1, 0, 0, greatest);
            longest.at.x[GUARD + 255 + lag] = longest.at.y[GUARD + 255] = (uint32_t)-6;
            shortest.at.x[GUARD + lag] = shortest.at.y[GUARD] = (uint32_t)-6;
            hold = hold && leaves(longest, lag, 36) && leaves(shortest, lag, 36);
        }
    }
    check("every lag of every greatest lag", hold);
}

static void check_greatest_scores(void)
{
    const int64_t least = -256 * (int64_t)2048 * 2047;
    recordings r = constant(320, -2048, -2048, 64);
    finds("a score of 1,073,741,824", r, 0, 1073741824);
    for (int t = 0; t < 64; t++) {
        r.at.x[GUARD + t] = (uint32_t)-2047;
    }
    finds("the same at lag 64 alone", r, 64, 1073741824);
    finds("2,047 throughout", constant(320, 2047, 2047, 64), 0, 256 * (int64_t)2047 * 2047);
    finds("the least score", constant(320, -2048, 2047, 64), 0, least);
    r = constant(320, -2048, 2047, 64);
    r.at.x[GUARD + 319] = (uint32_t)-2047;
    finds("one sample less at lag 64", r, 64, least + 2047);
}

/* The lengths differ by one, either way, where each would do with its own. */
static void check_lengths(void)
{
    recordings r = constant(20, 1, 1, 9);
    finds("lengths of 20", r, 0, 11);
    r.x_count = 19;
    refused("31: X is one sample shorter", r, 31);
    r.y_count = 19;
    finds("lengths of 19", r, 0, 10);
    r.x_count = 20;
    refused("31: Y is one sample shorter", r, 31);
    r.x_count = r.y_count = 0;
    refused("31: no samples", r, 31);
    r.greatest_lag = 0;
    refused("31: no samples and no lag", r, 31);
}

static void check_limits(void)
{
    finds("256 terms", constant(256, 1, 1, 0), 0, 256);
    refused("31: 257 terms", constant(257, 1, 1, 0), 31);
    finds("256 terms, greatest lag 64", constant(320, 1, 1, 64), 0, 256);
    refused("31: 257 terms, greatest lag 64", constant(321, 1, 1, 64), 31);
    refused("31: a greatest lag of 65", constant(321, 1, 1, 65), 31);
    refused("31: a greatest lag of 65 and one term", constant(66, 1, 1, 65), 31);
    finds("one term", constant(65, 2, 3, 64), 0, 6);
    refused("31: no term", constant(64, 1, 1, 64), 31);
    refused("31: a greatest lag above the length", constant(63, 1, 1, 64), 31);
    refused("31: a greatest lag of 2^64 - 1, from which the length wraps", constant(20, 1, 1, UINT64_MAX), 31);
    refused("31: a greatest lag of 2^64 - 200", constant(20, 1, 1, UINT64_MAX - 199), 31);
    refused("31: a greatest lag of 2^32", constant(20, 1, 1, (uint64_t)1 << 32), 31);
    refused("31: a greatest lag of 2^32 + 3", constant(20, 1, 1, ((uint64_t)1 << 32) + 3), 31);
}

/* A sample at each place of X, and then of Y. */
static int at_each_place(uint32_t sample, int is_refused)
{
    int hold = 1;
    for (int place = 0; place < 320; place++) {
        recordings x = constant(320, 0, 0, 64), y = x;
        x.at.x[GUARD + place] = y.at.y[GUARD + place] = sample;
        hold = hold && (is_refused ? refuses(x, 32) && refuses(y, 32) : leaves(x, 0, 0) && leaves(y, 0, 0));
    }
    return hold;
}

static void check_samples(void)
{
    check("a sample of 2,047 at each place", at_each_place(2047, 0));
    check("a sample of -2,048 at each place", at_each_place((uint32_t)-2048, 0));
    check("32: a sample of 2,048 at each place", at_each_place(2048, 1));
    check("32: a sample of -2,049 at each place", at_each_place((uint32_t)-2049, 1));
    check("32: a sample of 65,536 at each place", at_each_place(65536, 1));
    check("32: a sample of 2^31 - 1 at each place", at_each_place(INT32_MAX, 1));
    check("32: a sample of -2^31 at each place", at_each_place((uint32_t)INT32_MIN, 1));
    recordings r = constant(20, 1, 5000, 9);
    refused("32: the samples of Y", r, 32);
    r.y_count = 19;
    refused("31 before 32: lengths", r, 31);
    refused("31 before 32: greatest lag", constant(100, 5000, 1, 65), 31);
    refused("31 before 32: 257 terms", constant(260, 5000, -5000, 3), 31);
    refused("31 before 32: no term", constant(20, 5000, 1, 20), 31);
}

int main(void)
{
    check_scores();
    check_ties();
    check_every_lag();
    check_greatest_scores();
    check_lengths();
    check_limits();
    check_samples();
    return failed != 0;
}

/* A stand-in for the two fixed-point calls, from paper 02's A.6 in words. WRONG=n in the environment (STANDIN_WRONG) makes one of the wrong forms.
 * Questions 1 to 12, the work slice and the counts come from the archive's own nezgrak_run_tiles, on a copy of D. */
#include <nezgrak.h>
#include <stdlib.h>
#include <string.h>

typedef __int128 wide;
static int W_ = -1;
static int wrong(void) { if (W_ < 0) { const char *t = getenv("STANDIN_WRONG"); W_ = t ? atoi(t) : 0; } return W_; }
#define W(n) (wrong() == (n))

typedef struct { int n; uint32_t letter[24]; uint64_t extent[24]; } group;

static int has(const nezgrak_layout *l, uint32_t letter) { for (uint32_t i = 0; i < l->letter_count; i++) if (l->letters[i] == letter) return 1; return 0; }
static int in(const group *g, uint32_t letter) { for (int i = 0; i < g->n; i++) if (g->letter[i] == letter) return 1; return 0; }
static void put(group *g, uint32_t letter, uint32_t extent) { if (!in(g, letter)) { g->letter[g->n] = letter; g->extent[g->n++] = extent; } }
static uint64_t size(const group *g) { uint64_t s = 1; for (int i = 0; i < g->n; i++) { if (g->extent[i] == 0) return 0; } for (int i = 0; i < g->n; i++) s *= g->extent[i]; return s; }
static int64_t stride(const nezgrak_layout *l, uint32_t letter) { int64_t s = 0; for (uint32_t i = 0; i < l->letter_count; i++) if (l->letters[i] == letter) s += l->strides[i]; return s; }
static int64_t offset(const nezgrak_layout *l, const group *g, uint64_t count) {
    int64_t o = 0;
    for (int i = 0; i < g->n; i++) { o += (int64_t)(count % g->extent[i]) * stride(l, g->letter[i]); count /= g->extent[i]; }
    return o;
}

typedef struct { group h, r, c, k; } groups;
static groups of(const nezgrak_layout *a, const nezgrak_layout *b, const nezgrak_layout *d) {
    groups g; memset(&g, 0, sizeof g);
    for (uint32_t i = 0; i < d->letter_count; i++) {
        uint32_t l = d->letters[i];
        if (has(a, l) && has(b, l)) put(&g.h, l, d->extents[i]);
        else if (has(b, l)) put(&g.c, l, d->extents[i]);
        else put(&g.r, l, d->extents[i]);
    }
    for (uint32_t i = 0; i < a->letter_count; i++) if (!has(d, a->letters[i])) put(&g.k, a->letters[i], a->extents[i]);
    for (uint32_t i = 0; i < b->letter_count; i++) if (!has(d, b->letters[i])) put(&g.k, b->letters[i], b->extents[i]);
    return g;
}

static int64_t number(uint32_t w, int unsigned_form) { return unsigned_form ? (int64_t)w : (int64_t)(int32_t)w; }
static int fits(uint32_t w) {
    int32_t n = (int32_t)w;
    if (W(37)) return n >= -32767 && n <= 32767;
    if (W(38)) return n >= -32768 && n <= 32768;
    if (W(60)) return n >= -32769 && n <= 32767;
    if (W(61)) return (int16_t)w == (int16_t)n && w <= 32767;  /* negative words refused */
    return n >= -32768 && n <= 32767;
}

static int words_fit(const nezgrak_layout *l, const uint32_t *x, size_t n) {
    if (W(15)) { for (size_t i = 0; i < n; i++) if (!fits(x[i])) return 0; return 1; }
    group g; memset(&g, 0, sizeof g);
    if (W(39)) { /* axes one by one */
        for (uint32_t i = 0; i < l->letter_count; i++) { g.letter[g.n] = i; g.extent[g.n++] = l->extents[i]; }
        uint64_t s = size(&g);
        for (uint64_t c = 0; c < s; c++) {
            int64_t o = l->base; uint64_t rest = c;
            for (int i = 0; i < g.n; i++) { o += (int64_t)(rest % g.extent[i]) * l->strides[i]; rest /= g.extent[i]; }
            if (o >= 0 && o < (int64_t)n && !fits(x[o])) return 0;
        }
        return 1;
    }
    for (uint32_t i = 0; i < l->letter_count; i++) put(&g, l->letters[i], l->extents[i]);
    for (int i = 0; i < g.n; i++) if (stride(l, g.letter[i]) == 0 && g.extent[i] > 1) g.extent[i] = 1; /* the same words again */
    uint64_t s = size(&g), first = 0;
    if (W(40) && s > 0) s--;
    if (W(62)) first = 1;
    if (W(63) && s > 64) s = 64;
    for (uint64_t c = first; c < s; c++) if (!fits(x[(int64_t)l->base + offset(l, &g, c)])) return 0;
    return 1;
}

static uint32_t q34(const groups *g, uint32_t shift, const nezgrak_layout *a) {
    uint64_t s = size(&g->k);
    if (W(35)) { s = 1; for (int i = 0; i < g->k.n; i++) s *= g->k.extent[i] ? g->k.extent[i] : 1; }
    if (W(36)) { s = 1; for (int i = 0; i < g->k.n; i++) if (has(a, g->k.letter[i])) s *= g->k.extent[i]; }
    if (W(64)) { s = 1; for (int i = 0; i < g->k.n; i++) s = g->k.extent[i] > s ? g->k.extent[i] : s; } /* the largest extent */
    uint64_t most = W(21) ? 65537 : W(89) ? 65538 : W(55) ? 65535 : W(65) ? UINT64_MAX : 65536;
    uint32_t most_shift = W(20) ? 16 : W(66) ? 14 : W(51) ? 0xffffffff : 15;
    if (s > most || shift > most_shift) return 34;
    if (W(67) && shift == 0) return 34;
    return 0;
}

static uint32_t q35(const groups *g, const nezgrak_layout *al, const uint32_t *a, size_t an, const nezgrak_layout *bl, const uint32_t *b, size_t bn) {
    if (W(14) && (size(&g->h) == 0 || size(&g->r) == 0 || size(&g->c) == 0 || size(&g->k) == 0)) return 0;
    if (W(68) && (size(&g->h) == 0 || size(&g->r) == 0 || size(&g->c) == 0)) return 0;
    if (!W(13) && !words_fit(al, a, an)) return 35;
    if (!W(12) && !words_fit(bl, b, bn)) return 35;
    return 0;
}

/* Divided by 2^s and rounded to nearest, ties to even. */
static wide rounded(wide sum, uint32_t s) {
    wide unit = (wide)1 << s, q = sum / unit, r = sum % unit;
    if (r < 0) { q--; r += unit; }
    if (W(2)) return sum / unit;
    if (W(4)) return q;
    if (W(1)) return q + (2 * r >= unit);
    if (W(69)) return q + (2 * r > unit);
    if (W(3)) return sum < 0 ? q + (2 * r > unit) : q + (2 * r >= unit);
    if (W(70)) return q + (r > 0); /* up */
    if (W(54)) { int64_t x = (int64_t)((uint64_t)sum + (s ? (uint64_t)1 << (s - 1) : 0)); wide y = (wide)x >> s; if (s && 2 * r == unit && (y & 1)) y--; return y; }
    if (W(71)) { if (2 * r == unit) return q + !(q & 1); return q + (2 * r > unit); } /* ties to odd */
    if (2 * r > unit || (2 * r == unit && (q & 1))) q++;
    return q;
}

static wide held(wide x) {
    wide low = W(30) ? -2147483647 : -2147483648LL, high = W(72) ? 2147483646 : 2147483647;
    if (W(31)) return x;
    return x < low ? low : x > high ? high : x;
}

static uint32_t final_word(uint32_t old, int64_t sum, uint32_t s) {
    wide o = (int32_t)old, part;
    if (W(32)) o = old;
    if (W(6)) return (uint32_t)(int64_t)held(rounded((wide)sum + o, s));
    if (W(73)) return (uint32_t)(int64_t)held(rounded((wide)sum + o * ((wide)1 << s), s)); /* the same numbers but for ties: old is even or odd */
    part = rounded(sum, s);
    if (W(5)) part = held(part);
    if (W(22)) o = 0;
    if (W(34)) return (uint32_t)(int64_t)held((int64_t)((uint64_t)(int64_t)part + (uint64_t)(int64_t)o));
    return (uint32_t)(int64_t)held(o + part);
}

static int64_t add(int64_t sum, wide part) {
    wide whole = (wide)sum + part;
    if (W(25)) return (int64_t)(int32_t)(uint32_t)(uint64_t)whole;
    if (W(33)) return whole > INT64_MAX ? INT64_MAX : whole < INT64_MIN ? INT64_MIN : (int64_t)whole;
    return (int64_t)(uint64_t)whole;
}

static wide sum_of(const groups *g, const nezgrak_layout *al, const uint32_t *a, const nezgrak_layout *bl, const uint32_t *b,
                   uint64_t h, uint64_t i, uint64_t j, uint64_t from, uint64_t to) {
    int64_t ao = al->base + offset(al, &g->h, h) + offset(al, &g->r, i), bo = bl->base + offset(bl, &g->h, h) + offset(bl, &g->c, j);
    wide sum = 0;
    for (uint64_t k = from; k < to; k++) {
        int64_t x = number(a[ao + offset(al, &g->k, k)], W(10)), y = number(b[bo + offset(bl, &g->k, k)], W(11));
        sum += (wide)x * y;
    }
    return sum;
}

uint32_t nezgrak_contract_fixed(
    const nezgrak_layout *al, const uint32_t *a, size_t an, const nezgrak_layout *bl, const uint32_t *b, size_t bn,
    const nezgrak_layout *dl, uint32_t *d, size_t dn, uint32_t shift) {
    uint32_t work[2], complete, no; uint64_t done;
    no = nezgrak_run_tiles(al, a, an, bl, b, bn, dl, d, dn, 1, 1, 1, 1, 1, work, 2, 0, 0, &done, &complete);
    if (no) return no;
    groups g = of(al, bl, dl);
    if (W(16) && (no = q35(&g, al, a, an, bl, b, bn))) return no;
    if ((no = q34(&g, shift, al))) return no;
    if (!W(74) && (no = q35(&g, al, a, an, bl, b, bn))) return no;
    if (W(51)) shift &= 15;
    uint64_t hs = size(&g.h), rs = size(&g.r), cs = size(&g.c), ks = size(&g.k);
    if (hs == 0 || rs == 0 || cs == 0) return 0;
    for (uint64_t h = 0; h < hs; h++) for (uint64_t j = 0; j < cs; j++) for (uint64_t i = 0; i < rs; i++) {
        int64_t place = dl->base + offset(dl, &g.h, h) + offset(dl, &g.r, i) + offset(dl, &g.c, j);
        if (W(75)) { wide part = 0; for (uint64_t k = 0; k < ks; k++) part += rounded(sum_of(&g, al, a, bl, b, h, i, j, k, k + 1), shift); d[place] = (uint32_t)(int64_t)held((int32_t)d[place] + part); continue; }
        if (W(50) && ks == 0) { d[place] = 0; continue; }
        if (W(76)) { d[place] = (uint32_t)(int64_t)held(rounded(sum_of(&g, al, a, bl, b, h, i, j, 0, ks), shift)); continue; }
        d[place] = final_word(d[place], add(0, sum_of(&g, al, a, bl, b, h, i, j, 0, ks)), shift);
    }
    return 0;
}

uint32_t nezgrak_run_tiles_fixed(
    const nezgrak_layout *al, const uint32_t *a, size_t an, const nezgrak_layout *bl, const uint32_t *b, size_t bn,
    const nezgrak_layout *dl, uint32_t *d, size_t dn, uint32_t shift, uint32_t rows, uint32_t cols, uint32_t depth,
    uint32_t *work, size_t wn, int64_t *sums, size_t sn, uint64_t done, uint64_t budget, uint64_t *done_after, uint32_t *complete) {
    uint32_t no;
    if (W(19) && sn < dn) { *done_after = done; *complete = 0; return 33; }
    no = nezgrak_run_tiles(al, a, an, bl, b, bn, dl, d, dn, 1, 1, rows, cols, depth, work, wn, done, 0, done_after, complete);
    if (no) return no;
    groups g = of(al, bl, dl);
    uint64_t hs = size(&g.h), rs = size(&g.r), cs = size(&g.c), ks = size(&g.k), addressed = hs * rs * cs;
    uint32_t n33 = sn < dn ? 33 : 0;
    if (W(42)) n33 = sn < addressed ? 33 : 0;
    if (W(43)) n33 = sn != dn ? 33 : 0;
    if (W(77)) n33 = sn <= dn ? 33 : 0;
    uint32_t n34 = q34(&g, shift, al), n35 = 0;
    uint64_t MB = (rs + rows - 1) / rows, NB = (cs + cols - 1) / cols, KB = ks == 0 ? 1 : (ks + depth - 1) / depth;
    uint64_t total = (hs == 0 || rs == 0 || cs == 0) ? 0 : hs * NB * KB * MB;
    uint64_t count = budget < total - done ? budget : total - done;
    int skip35 = (W(27) && budget == 0) || (W(28) && done == total) || (W(58) && count == 0) || (W(78) && done > 0);
    if (!skip35) n35 = q35(&g, al, a, an, bl, b, bn);
    no = n33 ? n33 : n34 ? n34 : n35;
    if (W(16)) no = n33 ? n33 : n35 ? n35 : n34;
    if (W(17)) no = n34 ? n34 : n33 ? n33 : n35;
    if (W(18)) no = n34 ? n34 : n35 ? n35 : n33;
    if (W(79) && n33 && count == 0) no = n34 ? n34 : n35;
    if (no) {
        *done_after = W(41) ? 0 : W(80) ? done + count : done; *complete = W(81) ? done == total : 0;
        if (W(26)) for (size_t i = 0; i < sn; i++) sums[i] = 0;
        if (W(56)) for (size_t i = 0; i < wn && i < (size_t)rows * depth + (size_t)depth * cols; i++) work[i] = 0;
        if (W(82)) for (size_t i = 0; i < dn; i++) d[i] = 0;
        return no;
    }
    if (W(51)) shift &= 15;
    if (count > 0) { /* the last tile's blocks */
        uint32_t *copy = malloc((dn + 1) * sizeof *copy); memcpy(copy, d, dn * sizeof *copy);
        nezgrak_run_tiles(al, a, an, bl, b, bn, dl, copy, dn, 1, 1, rows, cols, depth, work, wn, done + count - 1, 1, done_after, complete);
        free(copy);
        if (W(47)) for (size_t i = 0; i < (size_t)rows * depth + (size_t)depth * cols; i++) work[i] &= 0xffff;
    }
    if (W(24) && done == 0 && count > 0) for (size_t i = 0; i < sn; i++) sums[i] = 0;
    if (W(83) && done == 0 && count > 0) for (size_t i = 0; i < dn; i++) sums[i] = 0;
    for (uint64_t n = done; n < done + count; n++) {
        uint64_t r = n % MB, p = n / MB % KB, c = n / MB / KB % NB, h = n / MB / KB / NB;
        uint64_t from = p * depth, to = from + depth < ks ? from + depth : ks;
        for (uint64_t j = c * cols; j < cs && j < (c + 1) * cols; j++) for (uint64_t i = r * rows; i < rs && i < (r + 1) * rows; i++) {
            int64_t place = dl->base + offset(dl, &g.h, h) + offset(dl, &g.r, i) + offset(dl, &g.c, j), at = place;
            if (W(23)) at = place + 1 < (int64_t)dn ? place + 1 : 0;
            if (W(84)) at = (int64_t)((h * cs + j) * rs + i);
            if (W(91) && i - r * rows >= 32) continue;              /* rows past 32 of a tile are lost */
            if (W(92) && j % cols >= 8) continue;                   /* columns past 8 of a tile are lost */
            if (W(93) && to - from > 64) to = from + 64;            /* depth past 64 of a panel is lost */
            wide part = from < to ? sum_of(&g, al, a, bl, b, h, i, j, from, to) : 0;
            if (W(85) && ks == 0) continue; /* nothing done for an empty depth */
            if ((p == 0 && !W(8)) || W(9)) sums[at] = 0;
            if (W(86) && p == 0) sums[at] = (int32_t)d[place]; /* starts from old */
            sums[at] = add(sums[at], part);
            if (W(44)) { d[place] = final_word(d[place], (int64_t)part, shift); continue; }
            if (W(87)) { d[place] = (uint32_t)(int64_t)held((int32_t)d[place] + part); if (p + 1 == KB) d[place] = (uint32_t)(int64_t)rounded((int32_t)d[place], shift); continue; }
            if (W(7)) { d[place] = final_word(d[place], sums[at], shift); continue; }
            if (W(45)) { if (p == 0) d[place] = final_word(d[place], sums[at], shift); continue; }
            if (W(50) && ks == 0) { d[place] = 0; continue; }
            if (p + 1 == KB) {
                d[place] = final_word(d[place], sums[at], shift);
                if (W(29)) sums[at] = 0;
            }
        }
    }
    *done_after = done + count; *complete = *done_after == total;
    if (W(90)) *done_after = done + budget;
    if (W(88)) *complete = 1;
    return 0;
}

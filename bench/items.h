/* An item's sums, zeros and layout, for the peer's passes: SSE2, expanded in place. */
#ifndef ITEMS_H
#define ITEMS_H

#include "peer.h"

#include <emmintrin.h>

/* ---- the sums: a = 1 + the sum of the terms, b = n + the sum of each term times the count of terms from it on */

#define ALWAYS static inline __attribute__((always_inline))

static inline uint32_t ended(uint64_t a, uint64_t b) { return (uint32_t)(b % 65535 * 65536 + a % 65535); }

/* The sum of a vector's 32-bit lanes. */
ALWAYS uint32_t lanes(__m128i x) {
    x = _mm_add_epi32(x, _mm_shuffle_epi32(x, 0x4e));
    x = _mm_add_epi32(x, _mm_shuffle_epi32(x, 0xb1));
    return (uint32_t)_mm_cvtsi128_si32(x);
}

#define W8(n) (n), (n) - 1, (n) - 2, (n) - 3, (n) - 4, (n) - 5, (n) - 6, (n) - 7
static const _Alignas(16) int16_t weights[128] = {
    W8(126), W8(118), W8(110), W8(102), W8(94), W8(86), W8(78), W8(70),
    W8(62), W8(54), W8(46), W8(38), W8(30), W8(22), W8(14), 6, 5, 4, 3, 2, 1, 0, 0,
};
static const _Alignas(16) int16_t even[128] = {
#define E8(n) (n), (n) - 2, (n) - 4, (n) - 6, (n) - 8, (n) - 10, (n) - 12, (n) - 14
    E8(252), E8(236), E8(220), E8(204), E8(188), E8(172), E8(156), E8(140),
    E8(124), E8(108), E8(92), E8(76), E8(60), E8(44), E8(28), 12, 10, 8, 6, 4, 2, 0, 0,
};

/* The two sums of an item of 16 * vectors bytes, its last four left out: words times constant weights. The product is
 * of signed words, so each word goes in as w - 32,768 and the difference is put back as a constant. */
struct two_sums { uint32_t a, b; };

ALWAYS struct two_sums words_of(const uint8_t *item, unsigned vectors) {
    const uint32_t n = 8 * vectors - 2;
    const int16_t *weight = weights + (128 - 8 * vectors);
    const __m128i flip = _mm_set1_epi16((short)0x8000), one = _mm_set1_epi16(1);
    const __m128i last = _mm_set_epi16(0, 0, 1, 1, 1, 1, 1, 1);
    __m128i sum = _mm_setzero_si128(), weighted = _mm_setzero_si128();
#pragma GCC unroll 16
    for (unsigned i = 0; i < vectors; i++) {
        __m128i x = _mm_xor_si128(_mm_loadu_si128((const __m128i *)(item + 16 * i)), flip);
        sum = _mm_add_epi32(sum, _mm_madd_epi16(x, i + 1 == vectors ? last : one));
        weighted = _mm_add_epi32(weighted, _mm_madd_epi16(x, _mm_load_si128((const __m128i *)(weight + 8 * i))));
    }
    return (struct two_sums){1 + lanes(sum) + 32768u * n, n + lanes(weighted) + 32768u * (n * (n + 1) / 2)};
}

/* The bytes of an image: even ones and odd ones as words, times constant weights. */
ALWAYS struct two_sums bytes_of(const uint8_t *item) {
    const __m128i low = _mm_set1_epi16(255), zero = _mm_setzero_si128();
    const __m128i mask = _mm_set_epi32(0, -1, -1, -1);
    __m128i sum = zero, weighted = zero, odd = zero;
#pragma GCC unroll 16
    for (unsigned i = 0; i < 16; i++) {
        __m128i x = _mm_loadu_si128((const __m128i *)(item + 16 * i));
        if (i == 15) x = _mm_and_si128(x, mask);
        __m128i w = _mm_load_si128((const __m128i *)(even + 8 * i)), hi = _mm_srli_epi16(x, 8);
        sum = _mm_add_epi64(sum, _mm_sad_epu8(x, zero));
        odd = _mm_add_epi16(odd, hi); /* at most 16 * 255 */
        weighted = _mm_add_epi32(weighted, _mm_madd_epi16(_mm_add_epi16(_mm_and_si128(x, low), hi), w));
    }
    /* an odd byte's weight is one less than that of the even byte before it */
    uint32_t less = lanes(_mm_madd_epi16(odd, _mm_set1_epi16(1)));
    return (struct two_sums){1 + lanes(sum), 252 + lanes(weighted) - less};
}

ALWAYS bool is_sum(struct two_sums t, uint32_t stored) {
    uint32_t a = stored & 65535, b = stored >> 16;
    return ((t.a + 65535 - a) % 65535 == 0) & ((t.b + 65535 - b) % 65535 == 0) & (a != 65535) & (b != 65535);
}

/* Whether an item holds its word sums: the stored words are summed with the weights -1, so that both sums must be
 * multiples of 65,535. */
static const _Alignas(16) int16_t tests[32] = {W8(30), W8(22), W8(14), 6, 5, 4, 3, 2, 1, 0, -1};

ALWAYS bool sealed_words(const uint8_t *item, unsigned vectors) {
    const uint32_t n = 8 * vectors - 2;
    const int16_t *weight = tests + (32 - 8 * vectors);
    const __m128i flip = _mm_set1_epi16((short)0x8000), one = _mm_set1_epi16(1);
    const __m128i last = _mm_set_epi16(0, -1, 1, 1, 1, 1, 1, 1);
    __m128i sum = _mm_setzero_si128(), weighted = _mm_setzero_si128();
#pragma GCC unroll 4
    for (unsigned i = 0; i < vectors; i++) {
        __m128i x = _mm_xor_si128(_mm_loadu_si128((const __m128i *)(item + 16 * i)), flip);
        sum = _mm_add_epi32(sum, _mm_madd_epi16(x, i + 1 == vectors ? last : one));
        weighted = _mm_add_epi32(weighted, _mm_madd_epi16(x, _mm_load_si128((const __m128i *)(weight + 8 * i))));
    }
    uint32_t a = 65536 + lanes(sum) + 32768u * (n - 1);
    uint32_t b = 65535 + n + lanes(weighted) + 32768u * (n * (n + 1) / 2 - 1);
    if (a % 65535 != 0) return false;
    if (b % 65535 != 0) return false;
    return two(item + 2 * n) != 65535 && two(item + 2 * n + 2) != 65535;
}

ALWAYS bool sealed_record(const uint8_t *x) { return sealed_words(x, 4); }
ALWAYS bool sealed_note(const uint8_t *x) { return sealed_words(x, 1); }
ALWAYS bool sealed(const uint8_t *x, size_t n) { return n == 60 ? sealed_record(x) : sealed_note(x); }

static inline bool zeros(const uint8_t *s, size_t n) {
    const __m128i zero = _mm_setzero_si128();
    size_t i = 0;
    for (; i + 64 <= n; i += 64) {
        const __m128i *p = (const __m128i *)(s + i);
        __m128i x = _mm_or_si128(_mm_or_si128(_mm_loadu_si128(p), _mm_loadu_si128(p + 1)),
                                 _mm_or_si128(_mm_loadu_si128(p + 2), _mm_loadu_si128(p + 3)));
        if (_mm_movemask_epi8(_mm_cmpeq_epi8(x, zero)) != 0xffff) return false;
    }
    for (; i + 16 <= n; i += 16)
        if (_mm_movemask_epi8(_mm_cmpeq_epi8(_mm_loadu_si128((const __m128i *)(s + i)), zero)) != 0xffff) return false;
    for (; i < n; i++)
        if (s[i]) return false;
    return true;
}

/* A record's payload past its length is zero: bytes 16 + length to 60, by masks. */
static const uint8_t past[128] = {[64 ... 127] = 255};
ALWAYS bool padded(const uint8_t *r, uint32_t length) {
    if (length == 44) return true;
    const uint8_t *m = past + 64 - length;
    __m128i x = _mm_and_si128(_mm_loadu_si128((const __m128i *)(r + 16)), _mm_loadu_si128((const __m128i *)m));
    __m128i y = _mm_and_si128(_mm_loadu_si128((const __m128i *)(r + 32)), _mm_loadu_si128((const __m128i *)(m + 16)));
    __m128i z = _mm_and_si128(_mm_loadu_si128((const __m128i *)(r + 44)), _mm_loadu_si128((const __m128i *)(m + 28)));
    x = _mm_or_si128(_mm_or_si128(x, y), z);
    return _mm_movemask_epi8(_mm_cmpeq_epi8(x, _mm_setzero_si128())) == 0xffff;
}

/* ---- images and records */

static inline bool valid_image(const struct volume *v, uint32_t page, const uint8_t *x) {
    if (two(x) != page || two(x + 2)) return false;
    uint32_t sum = four(x + 252);
    return (v->tag != '2' && is_sum(words_of(x, 16), sum)) || (v->tag != 'V' && is_sum(bytes_of(x), sum));
}

ALWAYS bool layout(const uint8_t *r) {
    uint32_t kind = r[10], length = r[11], offset = two(r + 12);
    if (kind == 1) {
        if (length | offset) return false;
    } else if ((kind != 2 && kind != 3) || length < 1 || length > 44 || offset > 244 - length || r[14]) {
        return false;
    }
    return !r[15] && padded(r, length);
}

#endif

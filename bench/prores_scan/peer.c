// The same sums as the program beside it, in plain C.
#include <immintrin.h>
#include <stdint.h>
#include <stdio.h>
#include <string.h>

#define PARTS 2040u
#define BLOCKS 65280u
#define NEVER __attribute__((noinline))

static uint32_t next(uint32_t x) { return x * 1664525u + 1013904223u; }

struct divisor {
    uint16_t factor, shift;
};

static uint8_t matrix[64];
static struct divisor divisors[64];

static struct divisor divisor_of(uint16_t divisor) {
    int shift = 31 - __builtin_clz(divisor - 1);
    return (struct divisor){((1u << (16 + shift)) + divisor - 1) / divisor, shift};
}

static inline uint16_t quotient(uint16_t x, struct divisor by) { return (uint16_t)(((uint32_t)x * by.factor) >> 16) >> by.shift; }

NEVER static void levels_once(const uint16_t *restrict part, uint16_t scale, struct divisor by, uint16_t *restrict out) {
    for (int k = 0; k < 2048; k++) out[k] = 2 * quotient(part[k] / 2 + scale, by) + part[k] % 2;
}

NEVER static uint64_t reached_once(const uint16_t *part, uint16_t least) {
    __m128i low = _mm_set1_epi16((short)least);
    uint64_t count = 0;
    for (int word = 0; word < 32; word++) {
        uint64_t bits = 0;
        for (int k = 0; k < 4; k++) {
            __m128i a = _mm_loadu_si128((const __m128i *)(part + 64 * word + 16 * k));
            __m128i b = _mm_loadu_si128((const __m128i *)(part + 64 * word + 16 * k + 8));
            __m128i c = _mm_cmpeq_epi16(_mm_max_epu16(a, low), a), d = _mm_cmpeq_epi16(_mm_max_epu16(b, low), b);
            bits |= (uint64_t)(uint32_t)_mm_movemask_epi8(_mm_packs_epi16(c, d)) << 16 * k;
        }
        count += __builtin_popcountll(bits);
    }
    return count;
}

NEVER static void lanes_once(const uint16_t *restrict sizes, const uint16_t *restrict negative, uint16_t *restrict out) {
    for (int place = 0; place < 64; place++)
        for (int k = 0; k < 8; k++) out[8 * place + k] = 2 * quotient(sizes[8 * place + k], divisors[place]) + negative[8 * place + k];
}

NEVER static void quantise_once(const int64_t *restrict block, uint16_t scale, int32_t *restrict out) {
    for (int k = 0; k < 64; k++) {
        uint64_t step = (uint64_t)4 * scale << 26;
        int32_t size = ((uint64_t)(block[k] < 0 ? -block[k] : block[k]) + step / 2) / step;
        out[k] = block[k] < 0 ? -size : size;
    }
}

NEVER static int dequantise_once(const int64_t *restrict block, const uint8_t *restrict weights, uint16_t scale, int32_t *restrict out, size_t count) {
    for (size_t k = 0; k < count; k++) {
        int64_t product = block[k] * (int64_t)((uint32_t)weights[k % 64] * scale);
        if (product < -(1 << 22) || product > 1 << 22) return 0;
        out[k] = product;
    }
    return 1;
}

int main(void) {
    char line[32];
    static uint16_t part[2048], out16[2048];
    for (int p = 0; p < 64; p++) { matrix[p] = 4 + p / 8 + p % 8; divisors[p] = divisor_of(matrix[p]); }
    while (fgets(line, sizeof line, stdin)) {
        uint32_t sum = 0, x = 1;
        int64_t g[64];
        int32_t out[64];
        line[strcspn(line, "\n")] = 0;
        if (!strcmp(line, "levels")) {
            for (int k = 0; k < 2048; k++) { x = next(x); part[k] = x / 65536 % 16384; }
            for (uint32_t n = 0; n < PARTS; n++) { uint16_t twice = n / 2 % 1020 + 2; levels_once(part, twice / 2, divisor_of(twice), out16); sum += out16[n % 2048]; }
        } else if (!strcmp(line, "reached")) {
            for (int k = 0; k < 2048; k++) { x = next(x); part[k] = x / 65536 % 16384; }
            for (uint32_t n = 0; n < PARTS; n++) { uint32_t least = (2 * (n % 7 + 1) - 1) * 2 * (n / 4 + 1); sum += (uint32_t)reached_once(part, least < 65535 ? least : 65535); }
        } else if (!strcmp(line, "lanes")) {
            uint16_t negative[512];
            for (int k = 0; k < 512; k++) { x = next(x); part[k] = x / 65536 % 32768; negative[k] = k % 2; }
            for (uint32_t n = 0; n < 8160; n++) { lanes_once(part, negative, out16); sum += out16[n % 512]; negative[n % 512] = n % 2; }
        } else if (!strcmp(line, "quantise")) {
            for (int k = 0; k < 64; k++) { x = next(x); g[k] = ((int64_t)x - 2147483648ll) * 256; }
            for (uint32_t n = 0; n < BLOCKS; n++) { quantise_once(g, n / 128 + 1, out); sum += out[n % 64] < 0 ? -out[n % 64] : out[n % 64]; }
        } else if (!strcmp(line, "dequantise")) {
            for (int k = 0; k < 64; k++) { x = next(x); g[k] = x / 65536 % 101; }
            for (uint32_t n = 0; n < BLOCKS; n++) if (dequantise_once(g, matrix, n / 128 + 1, out, 64)) sum += out[n % 64] < 0 ? -out[n % 64] : out[n % 64];
        }
        printf("%u\n", sum);
    }
    return 0;
}

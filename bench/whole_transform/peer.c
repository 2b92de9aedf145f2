// The same sums as the program beside it, in plain C: eight blocks at once, eight values at a time by an even and an odd
// half, 22 products for eight sums, all in ints of 32 bits. A sum that needs more is that of the values' upper and of
// their lower halves of 16 bits.
#include <stdint.h>
#include <stdio.h>
#include <string.h>

#define BLOCKS 65280u
#define NEVER __attribute__((noinline))
#define ALWAYS static inline __attribute__((always_inline))

static uint32_t next(uint32_t x) { return x * 1664525u + 1013904223u; }

ALWAYS void odd_half(const int32_t *x, int32_t *r) {
    int32_t a = x[0], b = x[1], c = x[2], d = x[3];
    r[0] = 8035 * a + 6811 * b + 4551 * c + 1598 * d;
    r[1] = 6811 * a - 1598 * b - 8035 * c - 4551 * d;
    r[2] = 4551 * a - 8035 * b + 1598 * c + 6811 * d;
    r[3] = 1598 * a - 4551 * b + 6811 * c - 8035 * d;
}

ALWAYS void even_products(int32_t a, int32_t b, int32_t c, int32_t d, int32_t *r) {
    r[0] = 5793 * a + 5793 * b;
    r[1] = 7568 * c + 3135 * d;
    r[2] = 5793 * a - 5793 * b;
    r[3] = 3135 * c - 7568 * d;
}

// The upper and the lower half of each of four values.
ALWAYS void split(const int32_t *x, int32_t *high, int32_t *low) {
    for (int k = 0; k < 4; k++) {
        high[k] = (x[k] + 32768) >> 16;
        low[k] = (int16_t)x[k];
    }
}

// Writes every second coefficient of a column, by the sums of the upper and of the lower halves.
ALWAYS void put_coefficients(const int32_t *high, const int32_t *low, uint16_t *sizes, uint16_t *negative) {
    for (int k = 0; k < 4; k++) {
        int32_t sign = (high[k] + (low[k] >> 16)) >> 31;
        sizes[128 * k] = ((high[k] + ((low[k] + sign) >> 16)) >> 9) ^ sign;
        negative[128 * k] = sign & 1;
    }
}

NEVER static void forward_once(const uint16_t *restrict samples, int32_t *restrict rows, uint16_t *restrict sizes,
                               uint16_t *restrict negative) {
    for (int y = 0; y < 8; y++) {
        for (int lane = 0; lane < 8; lane++) {
            int16_t x[8];
            for (int k = 0; k < 8; k++) x[k] = (int16_t)samples[64 * y + 8 * k + lane] - 512;
            int16_t a = x[0] + x[7], b = x[1] + x[6], c = x[2] + x[5], d = x[3] + x[4];
            int16_t e = a + d, f = b + c, g = a - d, h = b - c;
            int16_t differences[4] = {x[0] - x[7], x[1] - x[6], x[2] - x[5], x[3] - x[4]};
            int32_t values[4] = {differences[0], differences[1], differences[2], differences[3]}, even[4], odd[4];
            even_products(e, f, g, h, even);
            odd_half(values, odd);
            for (int k = 0; k < 4; k++) {
                rows[64 * y + 16 * k + lane] = even[k];
                rows[64 * y + 16 * k + 8 + lane] = odd[k];
            }
        }
    }
    for (int j = 0; j < 64; j++) {
        int32_t x[8], high[4], low[4], high_sums[4], low_sums[4];
        for (int y = 0; y < 8; y++) x[y] = rows[64 * y + j];
        int32_t a = x[0] + x[7], b = x[1] + x[6], c = x[2] + x[5], d = x[3] + x[4];
        int32_t folded[4] = {a + d, b + c, a - d, b - c};
        split(folded, high, low);
        even_products(high[0], high[1], high[2], high[3], high_sums);
        even_products(low[0], low[1], low[2], low[3], low_sums);
        put_coefficients(high_sums, low_sums, sizes + j, negative + j);
    }
    for (int j = 0; j < 64; j++) {
        int32_t x[8], high[4], low[4], high_sums[4], low_sums[4];
        for (int y = 0; y < 8; y++) x[y] = rows[64 * y + j];
        int32_t differences[4] = {x[0] - x[7], x[1] - x[6], x[2] - x[5], x[3] - x[4]};
        split(differences, high, low);
        odd_half(high, high_sums);
        odd_half(low, low_sums);
        put_coefficients(high_sums, low_sums, sizes + 64 + j, negative + 64 + j);
    }
}

ALWAYS void inverse_eight(const int32_t *x, int32_t *r) {
    int32_t p[4], odd[4], values[4] = {x[1], x[3], x[5], x[7]};
    even_products(x[0], x[4], x[2], x[6], p);
    odd_half(values, odd);
    int32_t even[4] = {p[0] + p[1], p[2] + p[3], p[2] - p[3], p[0] - p[1]};
    for (int j = 0; j < 4; j++) {
        r[j] = even[j] + odd[j];
        r[7 - j] = even[j] - odd[j];
    }
}

ALWAYS int32_t clamped(int32_t value) {
    value = value < 4 ? 4 : value;
    return value > 1019 ? 1019 : value;
}

NEVER static void inverse_once(const int16_t *restrict products, int32_t *restrict out) {
    for (int j = 0; j < 64; j++) {
        int32_t values[8], sums[8];
        for (int v = 0; v < 8; v++) values[v] = products[64 * v + j];
        inverse_eight(values, sums);
        for (int y = 0; y < 8; y++) out[64 * y + j] = sums[y];
    }
    for (int y = 0; y < 8; y++) {
        for (int lane = 0; lane < 8; lane++) {
            int32_t high[8], low[8], high_sums[8], low_sums[8];
            for (int u = 0; u < 8; u++) {
                int32_t value = out[64 * y + 8 * u + lane];
                high[u] = (value + 32768) >> 16;
                low[u] = (int16_t)value;
            }
            inverse_eight(high, high_sums);
            inverse_eight(low, low_sums);
            for (int x = 0; x < 8; x++) {
                int32_t carried = (low_sums[x] >> 16) + (1 << 13) + (512 << 14);
                out[64 * y + 8 * x + lane] = clamped((high_sums[x] + carried) >> 14);
            }
        }
    }
}

int main(void) {
    char line[32];
    while (fgets(line, sizeof line, stdin)) {
        uint64_t sum = 0;
        uint32_t x = 1;
        line[strcspn(line, "\n")] = 0;
        if (!strcmp(line, "forward")) {
            uint16_t samples[512] = {0}, sizes[512], negative[512];
            int32_t rows[512];
            for (uint32_t n = 0; n < BLOCKS / 8; n++) {
                x = next(x);
                samples[n % 512] = x / 65536 % 1024;
                forward_once(samples, rows, sizes, negative);
                uint32_t first = x / 65536 % 64 * 8;
                for (int b = 0; b < 8; b++) sum += sizes[first + b] + ((uint64_t)negative[first + b] << 16);
            }
        } else if (!strcmp(line, "inverse")) {
            int16_t products[512] = {0};
            int32_t out[512];
            for (uint32_t n = 0; n < BLOCKS / 8; n++) {
                x = next(x);
                products[n % 512] = (int16_t)(x / 65536 % 8192) - 4096;
                inverse_once(products, out);
                for (int b = 0; b < 8; b++) sum += out[x / 65536 % 64 * 8 + b];
            }
        }
        printf("%llu\n", (unsigned long long)sum);
    }
    return 0;
}

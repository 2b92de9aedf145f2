// The same symbols, codes and checks as in program.txt, in plain C. No part of the product.
#include <stdbool.h>
#include <stdint.h>
#include <stdio.h>
#include <string.h>

enum { COUNT = 4096, ROUNDS = 256 };

typedef struct { uint8_t a, r, e; } Code;
typedef struct { uint8_t *out; size_t len, at; uint64_t acc; uint32_t count; } Writer;
typedef struct { const uint8_t *bytes; size_t len, at; uint64_t word; uint32_t count; } Reader;

static const Code runs[16] = {
    {2, 0, 1}, {2, 0, 1}, {1, 0, 1}, {1, 0, 1}, {0, 0, 1}, {1, 1, 2}, {1, 1, 2}, {1, 1, 2},
    {1, 1, 2}, {0, 1, 2}, {0, 1, 2}, {0, 1, 2}, {0, 1, 2}, {0, 1, 2}, {0, 1, 2}, {0, 2, 3}};
static const Code levels[9] = {
    {2, 0, 2}, {1, 0, 1}, {2, 0, 1}, {0, 0, 1}, {0, 1, 2}, {0, 1, 2}, {0, 1, 2}, {0, 1, 2}, {0, 2, 3}};

static Code run_code(uint32_t n) { return runs[n < 15 ? n : 15]; }
static Code level_code(uint32_t n) { return levels[n < 8 ? n : 8]; }

static bool put(Writer *w, uint32_t n, uint32_t value) {
    uint32_t count = w->count + n;
    size_t free = w->len - w->at;
    if (free < 8 && free < (count + 7) / 8) return false;
    w->acc = w->acc << n | value;
    if (count >= 32) {
        count -= 32;
        uint32_t word = __builtin_bswap32((uint32_t)(w->acc >> count));
        memcpy(w->out + w->at, &word, 4);
        w->at += 4;
    }
    w->count = count;
    return true;
}

typedef struct { uint32_t size, number; } Form;

static Form form_of(Code code, uint32_t n) {
    uint32_t count = (uint32_t)(code.a + 1) << code.r;
    if (n < count) {
        uint32_t one = 1u << code.r;
        return (Form){(n >> code.r) + 1 + code.r, one + (n & (one - 1))};
    }
    uint64_t number = (uint64_t)(n - count) + (1u << code.e);
    uint32_t digits = 64 - __builtin_clzll(number);
    return (Form){code.a + 2 * digits - code.e, (uint32_t)number};
}

static bool put_code(Writer *w, Code code, uint32_t n) {
    Form form = form_of(code, n);
    return put(w, form.size, form.number);
}

static void refill(Reader *r) {
    if (r->count >= 32) return;
    if (r->len - r->at < 4) {
        while (r->at < r->len) {
            r->word |= (uint64_t)r->bytes[r->at++] << (56 - r->count);
            r->count += 8;
        }
        return;
    }
    uint32_t next;
    memcpy(&next, r->bytes + r->at, 4);
    r->word |= (uint64_t)__builtin_bswap32(next) << (32 - r->count);
    r->count += 32;
    r->at += 4;
}

static bool skip(Reader *r, uint32_t size) {
    if (size > r->count) return false;
    r->word <<= size;
    r->count -= size;
    refill(r);
    return true;
}

static bool find(Code code, uint32_t next, uint32_t *size, uint32_t *n) {
    uint32_t zeros = next ? __builtin_clz(next) : 32;
    if (zeros <= code.a) {
        *size = zeros + 1 + code.r;
        *n = (zeros << code.r) + (next >> (32 - *size)) - (1u << code.r);
    } else if (2 * zeros + code.e - code.a <= 32) {
        *size = 2 * zeros + code.e - code.a;
        *n = (next >> (32 - *size)) - (1u << code.e) + ((uint32_t)(code.a + 1) << code.r);
    } else {
        return false;
    }
    return true;
}

static bool get_code(Reader *r, Code code, uint32_t *n) {
    uint32_t size, value;
    if (!find(code, (uint32_t)(r->word >> 32), &size, &value)) return false;
    if (!skip(r, size)) return false;
    *n = value;
    return true;
}

static uint32_t symbols[COUNT];
static uint8_t bytes[16384];

__attribute__((noinline)) static size_t write_all(void) {
    Writer w = {bytes, sizeof bytes, 0, 0, 0};
    uint32_t run = 4, level = 1;
    for (int k = 0; k < COUNT; k++) {
        uint32_t n = symbols[k] & 0xfff;
        Code code = k % 2 == 0 ? run_code(run) : level_code(level);
        if (k % 2 == 0) run = n; else level = n;
        if (!put_code(&w, code, n)) break;
    }
    uint32_t last = (w.count + 7) / 8;
    uint32_t word = __builtin_bswap32((uint32_t)(w.acc << (32 - w.count)));
    memcpy(w.out + w.at, &word, last);
    return w.at + last;
}

__attribute__((noinline)) static uint64_t read_all(size_t used) {
    Reader r = {bytes, used, 0, 0, 0};
    refill(&r);
    uint32_t run = 4, level = 1, n;
    uint64_t sum = 0;
    for (int k = 0; k < COUNT; k++) {
        Code code = k % 2 == 0 ? run_code(run) : level_code(level);
        if (!get_code(&r, code, &n)) break;
        if (k % 2 == 0) run = n; else level = n;
        sum += n;
    }
    return sum;
}

// tables as those of Pairs and Heads: entries of 8 and of 4 bytes, rows multiplied
typedef struct { uint32_t number; uint8_t size; uint16_t row; } Pair;
typedef struct { uint8_t run, size; uint16_t row; } RunHead;
typedef struct { int8_t level; uint8_t size; uint16_t row; } LevelHead;

static const uint32_t first_runs[6] = {0, 2, 4, 5, 9, 15}, first_sizes[6] = {0, 1, 2, 3, 4, 8};
static Pair pairs[4608];
static RunHead run_heads[3072];
static LevelHead level_heads[3072];
static uint8_t pair_symbols[COUNT];

static uint32_t class_of(const uint32_t *firsts, uint32_t n) {
    uint32_t class = 5;
    while (firsts[class] > n) class--;
    return class;
}
static uint16_t pair_row(uint32_t run, uint32_t size) { return 128 * (6 * class_of(first_runs, run) + class_of(first_sizes, size)); }

static void make_tables(void) {
    for (uint32_t k = 0; k < 4608; k++) {
        uint32_t state = k / 128, run = k / 16 % 8, level = k % 16, size = level / 2 ? level / 2 - 1 : 0;
        Form one = form_of(run_code(first_runs[state / 6]), run), two = form_of(level_code(first_sizes[state % 6]), size);
        pairs[k] = (Pair){((one.number << two.size) + two.number) * 2 + level % 2, one.size + two.size + 1, pair_row(run, size)};
    }
    for (uint32_t k = 0; k < 3072; k++) {
        uint32_t nine = k % 512, size, n;
        if (!find(run_code(first_runs[k / 512]), nine << 23, &size, &n) || size > 9 || n >= 64) size = 64, n = 0;
        run_heads[k] = (RunHead){n, size, 512 * class_of(first_runs, n)};
        if (!find(level_code(first_sizes[k / 512]), nine << 23, &size, &n) || size > 8 || n >= 64) size = 64, n = 0;
        bool minus = size < 64 && nine >> (8 - size) & 1;
        level_heads[k] = (LevelHead){minus ? -1 - (int)n : (int)n + 1, size < 64 ? size + 1 : 64, 512 * class_of(first_sizes, n)};
    }
}

__attribute__((noinline)) static size_t write_pairs(void) {
    Writer w = {bytes, sizeof bytes, 0, 0, 0};
    uint32_t row = pair_row(4, 1);
    for (int k = 0; k < COUNT; k++) {
        uint32_t run = pair_symbols[k] & 7, level = pair_symbols[k] >> 3 & 15;
        Pair pair = pairs[row + 16 * run + level];
        if (!put(&w, pair.size, pair.number)) break;
        row = pair.row;
    }
    uint32_t last = (w.count + 7) / 8;
    uint32_t word = __builtin_bswap32((uint32_t)(w.acc << (32 - w.count)));
    memcpy(w.out + w.at, &word, last);
    return w.at + last;
}

__attribute__((noinline)) static uint64_t read_pairs(size_t used) {
    Reader r = {bytes, used, 0, 0, 0};
    refill(&r);
    uint32_t run = 512 * class_of(first_runs, 4), level = 512 * class_of(first_sizes, 1);
    uint64_t sum = 0;
    for (int k = 0; k < COUNT; k++) {
        uint32_t next = (uint32_t)(r.word >> 32);
        RunHead one = run_heads[run + (next >> 23)];
        LevelHead two = level_heads[level + (next << (one.size & 31) >> 23)];
        uint32_t size = (uint32_t)one.size + two.size;
        if (size > 32 || !skip(&r, size)) break;
        sum += one.run;
        sum += (uint64_t)(two.level < 0 ? -two.level : two.level) << 1 | (two.level < 0);
        run = one.row;
        level = two.row;
    }
    return sum;
}

int main(void) {
    char line[32];
    uint32_t state = 2463534242u;
    for (int k = 0; k < COUNT; k++) {
        state ^= state << 13;
        state ^= state >> 17;
        state ^= state << 5;
        symbols[k] = (state & 0xff) >> (state >> 8 & 7);
        pair_symbols[k] = (state & 7) | ((state >> 3) % 14 + 2) << 3;
    }
    make_tables();
    while (fgets(line, sizeof line, stdin)) {
        uint64_t sum = 0;
        line[strcspn(line, "\n")] = 0;
        if (!strcmp(line, "write")) {
            for (int k = 0; k < ROUNDS; k++) { sum += write_all(); sum += bytes[sum % 4096]; }
        } else if (!strcmp(line, "read")) {
            size_t used = write_all();
            for (int k = 0; k < ROUNDS; k++) { sum += read_all(used); bytes[sizeof bytes - 1] = (uint8_t)sum; }
        } else if (!strcmp(line, "write pairs")) {
            for (int k = 0; k < ROUNDS; k++) { sum += write_pairs(); sum += bytes[sum % 4096]; }
        } else if (!strcmp(line, "read pairs")) {
            size_t used = write_pairs();
            for (int k = 0; k < ROUNDS; k++) { sum += read_pairs(used); bytes[sizeof bytes - 1] = (uint8_t)sum; }
        }
        printf("%llu\n", (unsigned long long)sum);
    }
    return 0;
}

// Writes pictures of 1920 by 1080, 4:2:2 in ten bits, that look somewhat like a moving scene: clouds of several sizes
// that drift, an edge here and there, and grain. The same numbers give the same bytes on every machine.
// Usage: pictures feed|raw FRAMES BUDGET WEIGHTS   (feed: as the program reads them; raw: planes, low byte first)
#include <stdint.h>
#include <stdio.h>
#include <stdlib.h>
#include <string.h>

enum { WIDTH = 1920, HEIGHT = 1080 };

static uint32_t mixed(uint32_t x) {
  x ^= x >> 16;
  x *= 0x7feb352d;
  x ^= x >> 15;
  x *= 0x846ca68b;
  x ^= x >> 16;
  return x;
}

// a number of 0 to 1023 for a point of a lattice
static int lattice(int x, int y, uint32_t seed) { return (int)(mixed((uint32_t)x * 0x9e3779b1u ^ (uint32_t)y * 0x85ebca77u ^ seed) >> 22); }

// the lattice of so many bits, smoothed between its points: 0 to 1023
static int cloud(int x, int y, int bits, uint32_t seed) {
  int size = 1 << bits, column = x >> bits, row = y >> bits, u = x & (size - 1), v = y & (size - 1);
  int top = lattice(column, row, seed) * (size - u) + lattice(column + 1, row, seed) * u;
  int bottom = lattice(column, row + 1, seed) * (size - u) + lattice(column + 1, row + 1, seed) * u;
  return (int)(((int64_t)top * (size - v) + (int64_t)bottom * v) >> (2 * bits));
}

static int luma(int x, int y, int frame) {
  int drift_x = x + 1024 + 7 * frame, drift_y = y + 1024 + 3 * frame;
  int value = 420 * cloud(drift_x, drift_y, 8, 1) + 220 * cloud(drift_x, drift_y, 6, 2) + 130 * cloud(drift_x, drift_y, 4, 3)
      + 70 * cloud(drift_x, drift_y, 3, 4) + 34 * cloud(drift_x, drift_y, 2, 5);
  value = 64 + (value >> 10);
  if ((cloud(drift_x, drift_y, 7, 6) & 512) != 0) value += 60;
  return value + (int)(mixed((uint32_t)(x + 2048 * y) ^ mixed((uint32_t)frame)) >> 28) - 8;
}

static int chroma(int x, int y, int frame, uint32_t seed) {
  int drift_x = x + 1024 + 3 * frame, drift_y = y + 1024 + 3 * frame;
  int value = 260 * cloud(drift_x, drift_y, 7, seed) + 90 * cloud(drift_x, drift_y, 5, seed + 1) + 40 * cloud(drift_x, drift_y, 3, seed + 2);
  return 320 + (value >> 10) + (int)(mixed((uint32_t)(x + 1024 * y) ^ mixed((uint32_t)frame + seed)) >> 29) - 4;
}

static int big_endian;

static void put(uint8_t *at, int value) {
  if (value < 4) value = 4;
  if (value > 1019) value = 1019;
  at[big_endian ? 0 : 1] = (uint8_t)(value >> 8);
  at[big_endian ? 1 : 0] = (uint8_t)value;
}

int main(int count, char **words) {
  if (count != 5) return 2;
  big_endian = strcmp(words[1], "feed") == 0;
  int frames = atoi(words[2]), budget = atoi(words[3]), weights = atoi(words[4]);
  uint8_t head[72] = "PRFEEDP1";
  uint8_t *config = head + 8;
  config[0] = WIDTH >> 8, config[1] = WIDTH & 255, config[2] = HEIGHT >> 8, config[3] = HEIGHT & 255;
  config[5] = 3, config[6] = 3, config[7] = config[8] = config[9] = 1, config[10] = 3, config[11] = 1, config[12] = 224;
  config[13] = (uint8_t)weights, config[14] = 2, config[16] = (uint8_t)(budget >> 8), config[17] = (uint8_t)budget;
  config[19] = 250, config[22] = 1, config[25] = 8;
  memcpy(config + 48, "BENC", 4);
  if (big_endian) fwrite(head, 1, sizeof head, stdout);
  static uint8_t row[2 * WIDTH];
  for (int frame = 0; frame < frames; frame++) {
    if (big_endian) fwrite("PICT", 1, 4, stdout);
    for (int y = 0; y < HEIGHT; y++) {
      for (int x = 0; x < WIDTH; x++) put(row + 2 * x, luma(x, y, frame));
      fwrite(row, 2, WIDTH, stdout);
    }
    for (uint32_t plane = 0; plane < 2; plane++)
      for (int y = 0; y < HEIGHT; y++) {
        for (int x = 0; x < WIDTH / 2; x++) put(row + 2 * x, chroma(x, y, frame, 16 + 8 * plane));
        fwrite(row, 2, WIDTH / 2, stdout);
      }
  }
  return 0;
}

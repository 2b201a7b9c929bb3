/* Sensor values from LEAST to MOST, by a generator of pseudo-random numbers with columns of LENGTH values; what is given on goes into a sum, with KEEP. */
#include "io.h"

#define COLUMNS 4

int64_t events;
uint32_t given;
static int32_t values[COLUMNS][LENGTH];
static unsigned next[COLUMNS];

void fill(void) {
  uint32_t x = 1;
  for (int k = 0; k < LENGTH; k++)
    for (int c = 0; c < COLUMNS; c++) {
      x = x * 1664525u + 1013904223u;
      values[c][k] = (int32_t)((LEAST) + (int64_t)((x >> 8) % (uint32_t)((int64_t)(MOST) - (LEAST) + 1)));
    }
}

int32_t take(int column) { return values[column][next[column]++ % LENGTH]; }

void give(int output, int32_t value) {
#ifdef KEEP
  given = given * 31u + (uint32_t)value * 7u + (uint32_t)output;
#else
  (void)output, (void)value;
#endif
}

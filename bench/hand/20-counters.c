/* Twenty counters at one clock, modulo 10 to 29. */
#include "io.h"

#define COUNTERS 20

static int32_t counts[COUNTERS];

static void step(void) {
#pragma GCC unroll 20
  for (int k = 0; k < COUNTERS; k++) {
    give(1, counts[k]);
    if (++counts[k] == 10 + k) counts[k] = 0;
  }
}

void run(void) {
  for (int64_t k = 0; k < events; k++) step();
}

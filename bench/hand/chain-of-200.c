/* A counter, and behind it 198 blocks in a chain: times 3, less the count, kept within a million, without its sign. */
#include "io.h"

static int32_t count;

static int32_t limited(int32_t value) { return value < -1000000 ? -1000000 : value > 1000000 ? 1000000 : value; }

static int32_t magnitude(int32_t value) { return value == INT32_MIN ? INT32_MAX : value < 0 ? -value : value; }

static int32_t tripled(int32_t value) { return (int32_t)(3u * (uint32_t)value); }

static int32_t less(int32_t value) { return (int32_t)((uint32_t)value - (uint32_t)count); }

static void step(void) {
  int32_t value = count;
#pragma GCC unroll 49
  for (int k = 0; k < 49; k++) value = magnitude(limited(less(tripled(value))));
  give(1, less(tripled(value)));
  if (++count == 1000) count = 0;
}

void run(void) {
  for (int64_t k = 0; k < events; k++) step();
}

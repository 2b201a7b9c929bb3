/* A boiler that heats while one of two rooms is cold. */
#include "io.h"

static uint8_t is_on[2];

static uint8_t decided(uint8_t was_on, int16_t temperature) { return temperature > 210 ? 0 : temperature < 190 ? 1 : was_on; }

static void step(void) {
  int16_t kitchen = (int16_t)take(1), study = (int16_t)take(2);
  is_on[0] = decided(is_on[0], kitchen);
  is_on[1] = decided(is_on[1], study);
  give(1, is_on[0] || is_on[1]);
}

void run(void) {
  for (int64_t k = 0; k < events; k++) step();
}

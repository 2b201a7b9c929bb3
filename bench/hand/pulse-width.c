/* A pulse of so many of eight ticks as a sensor asks for at the first of them. */
#include "io.h"

static uint8_t phase, duty;

static void step(void) {
  if (phase == 0) duty = (uint8_t)take(1);
  give(1, phase < duty);
  phase = (uint8_t)((phase + 1) & 7);
}

void run(void) {
  for (int64_t k = 0; k < events; k++) step();
}

/* The delays between the steps of a motor that speeds up and slows down. */
#include "io.h"

static struct {
  uint32_t now;
  int32_t all;
  uint16_t done;
} s;

static int32_t step(void) {
  int32_t left = (int32_t)((uint32_t)s.all - s.done - 1u), near = left < s.done ? left : s.done;
  s.done = (uint16_t)((s.done + 1) & 32767);
  int32_t ramp = (int32_t)(40u - 8u * (uint32_t)near);
  ramp = ramp > 40 ? 40 : ramp < 10 ? 10 : ramp;
  int32_t delay = near >= 0 ? ramp : -1;
  give(1, delay);
  return delay;
}

void run(void) {
  s.all = take(1);
  for (int64_t k = 0; k < events; k++) {
    int32_t delay = step();
    if (delay < 0) break;
    s.now += (uint32_t)delay;
  }
}

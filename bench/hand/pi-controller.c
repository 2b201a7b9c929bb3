/* A speed controller with an integral that doesn't wind up. */
#include "io.h"

static int16_t integral;

static int16_t saturated(int32_t value) { return (int16_t)(value < INT16_MIN ? INT16_MIN : value > INT16_MAX ? INT16_MAX : value); }

static void step(void) {
  int16_t wanted = (int16_t)take(1), speed = (int16_t)take(2);
  int16_t proportional = saturated(2 * saturated(wanted - speed)), sum = saturated(proportional + integral);
  int16_t drive = sum < 0 ? 0 : sum > 1000 ? 1000 : sum;
  integral = saturated(integral + (saturated(drive - integral) >> 3));
  give(1, drive);
}

void run(void) {
  for (int64_t k = 0; k < events; k++) step();
}

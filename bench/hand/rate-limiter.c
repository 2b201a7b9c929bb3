/* A value that follows what is wanted, by at most 5 up and 8 down; what is wanted is asked for at every fourth event. */
#include "io.h"

static struct {
  uint32_t slow, fast;
  int32_t wanted, value;
} s;

static void on_slow(void) {
  s.wanted = take(1);
  s.slow += 40;
}

static void on_fast(void) {
  int32_t step = (int32_t)((uint32_t)s.wanted - (uint32_t)s.value);
  step = step > 5 ? 5 : step < -8 ? -8 : step;
  s.value = (int32_t)((uint32_t)s.value + (uint32_t)step);
  s.fast += 10;
  give(1, s.value);
  give(2, s.value > 20);
}

void run(void) {
  for (int64_t k = 0; k < events; k++)
    if ((int32_t)(s.slow - s.fast) <= 0)
      on_slow();
    else
      on_fast();
}

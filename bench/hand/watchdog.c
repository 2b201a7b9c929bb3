/* A watchdog that barks where no sign of life comes for 50 ticks. */
#include "io.h"

static struct {
  uint32_t life, timeout;
  uint8_t waits, lives, barks;
} s = {60, 50, 1, 1, 1};

static void on_life(void) {
  int32_t gap = take(1);
  uint32_t now = s.life;
  s.lives = gap >= 0;
  s.life = now + (uint32_t)gap;
  s.timeout = now + 50;
  s.waits = 1;
  give(1, 0);
}

static void on_timeout(void) {
  s.waits = 0;
  give(1, 1);
  give(2, s.barks++);
}

void run(void) {
  for (int64_t k = 0; k < events; k++) {
    if (s.lives && (!s.waits || (int32_t)(s.life - s.timeout) <= 0))
      on_life();
    else if (s.waits)
      on_timeout();
    else
      break;
  }
}

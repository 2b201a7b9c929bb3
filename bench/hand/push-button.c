/* A push button that is pressed or let go once three values in turn say so, and how often it was pressed. */
#include "io.h"

static struct { uint8_t first, second, was, presses; } s = {0, 0, 0, 1};

static void step(void) {
  uint8_t value = (uint8_t)take(1), any = value || s.first || s.second, all = value && s.first && s.second;
  uint8_t pressed = all ? 1 : any ? s.was : 0;
  give(1, pressed);
  if (pressed && !s.was) give(2, s.presses++);
  s.second = s.first;
  s.first = value;
  s.was = pressed;
}

void run(void) {
  for (int64_t k = 0; k < events; k++) step();
}

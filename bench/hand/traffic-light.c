/* A traffic light, green until a sensor asks for red. */
#include "io.h"

enum { GREEN = 1, AMBER, RED, RED_AMBER };

static struct {
  uint32_t now;
  uint8_t state;
} s = {0, RED_AMBER};

static void step(void) {
  static const uint8_t lamps[5][3] = {{0, 0, 0}, {0, 0, 1}, {0, 1, 0}, {1, 0, 0}, {1, 1, 0}};
  static const uint8_t lasts[5] = {0, 10, 3, 12, 2};
  switch (s.state) {
    case GREEN:
      s.state = take(1) > 0 ? AMBER : GREEN;
      break;
    case AMBER:
      s.state = RED;
      break;
    case RED:
      s.state = RED_AMBER;
      break;
    default:
      s.state = GREEN;
  }
  give(1, s.state);
  give(1, lamps[s.state][0]);
  give(1, lamps[s.state][1]);
  give(1, lamps[s.state][2]);
  s.now += lasts[s.state];
}

void run(void) {
  for (int64_t k = 0; k < events; k++) step();
}

/* The position that two tracks of a quadrature encoder tell, and whether a step was lost. */
#include "io.h"

#define LOST 2

static struct {
  uint8_t tracks;
  int16_t position;
} s;

static void step(void) {
  static const int8_t moves[16] = {0, -1, 1, LOST, 1, 0, LOST, -1, -1, LOST, 0, 1, LOST, 1, -1, 0};
  uint8_t tracks = (uint8_t)((take(1) != 0) * 2);
  tracks = (uint8_t)(tracks | (take(2) != 0));
  int8_t move = moves[s.tracks * 4 + tracks];
  s.tracks = tracks;
  if (move != LOST) s.position = (int16_t)(s.position + move);
  give(1, move == LOST);
  give(2, s.position);
}

void run(void) {
  for (int64_t k = 0; k < events; k++) step();
}

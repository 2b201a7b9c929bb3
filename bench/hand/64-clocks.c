/* 64 clocks with a counter each: timers in a table, the earliest is looked for, and of equal ones that which was set first. */
#include "io.h"

#define CLOCKS 64

static struct {
  int32_t due[CLOCKS], count[CLOCKS];
  uint32_t order[CLOCKS], set;
} s;

static void step(void) {
  int first = 0;
  for (int k = 1; k < CLOCKS; k++)
    if (s.due[k] < s.due[first] || (s.due[k] == s.due[first] && s.order[k] < s.order[first])) first = k;
  give(1, s.count[first]);
  if (++s.count[first] == 10 + first) s.count[first] = 0;
  s.due[first] += 1 + first;
  s.order[first] = s.set++;
}

void run(void) {
  for (int k = 0; k < CLOCKS; k++) s.order[k] = (uint32_t)k;
  s.set = CLOCKS;
  for (int64_t k = 0; k < events; k++) step();
}

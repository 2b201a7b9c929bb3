/* Runs a controller for so many events, and prints the sum of what it gave. */
#include <inttypes.h>
#include <stdio.h>
#include <stdlib.h>

#include "io.h"

void fill(void);
extern uint32_t given;

int main(int count, char **words) {
  events = count > 1 ? atoll(words[1]) : 1000;
  fill();
  run();
  printf("%" PRIu32 "\n", given);
  return 0;
}

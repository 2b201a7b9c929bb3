/* Counts the instructions of a controller's events on a Cortex-M4 in qemu, where with `-icount shift=0` each takes 1 ns, so that 40 pass between two ticks
   of the timer (25 MHz). It prints them for one event by semihosting. */
#include "io.h"

#define TIMER ((volatile uint32_t *)0xE000E010)
#define PER_TICK 40

void fill(void);
void reset(void);

__attribute__((section(".vectors"), used)) static void *const vectors[] = {(void *)0x20400000, (void *)reset, (void *)reset, (void *)reset};

static void semihost(int operation, const void *argument) {
  register int r0 __asm__("r0") = operation;
  register const void *r1 __asm__("r1") = argument;
  __asm__ volatile("bkpt 0xab" : : "r"(r0), "r"(r1) : "memory");
}

void *memset(void *to, int value, unsigned count) {
  char *at = to;
  while (count--) *at++ = (char)value;
  return to;
}

void reset(void) {
  char text[16];
  int at = 15;
  fill();
  events = EVENTS;
  TIMER[1] = 0xFFFFFF;
  TIMER[2] = 0;
  TIMER[0] = 5;
  uint32_t before = TIMER[2];
  run();
  uint32_t passed = ((before - TIMER[2]) & 0xFFFFFF) * PER_TICK / EVENTS;
  text[at] = 0;
  text[--at] = '\n';
  do {
    text[--at] = (char)('0' + passed % 10);
    passed /= 10;
  } while (passed);
  semihost(4, text + at);
  semihost(0x18, (void *)0x20026);
  for (;;) {
  }
}

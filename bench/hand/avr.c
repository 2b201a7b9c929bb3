/* Counts the cycles of a controller's events on an AVR in simavr, by timer 1, and prints them for one event on the serial line, behind a =. */
#include <avr/interrupt.h>
#include <avr/io.h>
#include <avr/sleep.h>

#include "io.h"

void fill(void);
static volatile uint16_t high;

ISR(TIMER1_OVF_vect) { high++; }

static void put(char letter) {
  while (!(UCSR0A & (1 << UDRE0))) {
  }
  UDR0 = letter;
}

static uint32_t now(void) {
  uint8_t status = SREG;
  cli();
  uint16_t low = TCNT1, above = high;
  if ((TIFR1 & 1) && low < 0x8000) above++;
  SREG = status;
  return ((uint32_t)above << 16) | low;
}

int main(void) {
  char text[12];
  int at = 11;
  UCSR0B = 1 << TXEN0;
  TIMSK1 = 1;
  TCCR1B = 1;
  fill();
  events = EVENTS;
  sei();
  uint32_t before = now();
  run();
  uint32_t passed = (now() - before) / EVENTS;
  do {
    text[--at] = (char)('0' + passed % 10);
    passed /= 10;
  } while (passed);
  put('=');
  while (at < 11) put(text[at++]);
  put('\n');
  for (volatile int k = 0; k < 2000; k++) {
  }
  cli();
  sleep_mode();
  return 0;
}

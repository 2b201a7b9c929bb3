/* Steps a generated program from outside, event by event: from a timer's interrupt, a task, or a simulation of what is controlled.

   In a C file of its own:

       #include <stdint.h>
       #define STEP(name) boiler_##name
       #define STEP_FILE "thermostat.c"
       static int64_t STEP(input)(int64_t column) { .. }
       static void STEP(value)(int64_t block, int64_t port, int64_t element, int64_t value) { .. }
       #include "step-host.h"

   and elsewhere:

       boiler_init();              the reaction of start; once, first
       boiler_next_date();         the date of the next event in ticks, or -1
       boiler_step(now);           all events whose dates have come

   `input` answers what is measured, within the type of the column's sensor; `value` takes what an actuator gets. Both are called within `init` and
   `step`. What belongs to one date the caller latches before it steps. Several designs, or one several times, each have a file with a STEP of their own.
   A program is stepped by one caller at a time: nothing here locks.

   `init` and `step` answer how the run stands: STEP(goes_on), STEP(over) or STEP(stopped). `word` tells more: of a run that is over 0 where a HALT_f
   acted, 2 where nothing is pending any more, 3 where the next date is past 2^62; of one that has stopped 0 where a result didn't fit its type, 1 where a
   divisor was 0, and `block` tells the block. From then on `step` does nothing. That a HALT_f acted is told when the next event is due, and by `init`
   where it acted at start. */
#include <setjmp.h>
#include <stdint.h>

enum { STEP(goes_on), STEP(over), STEP(stopped) };

int64_t STEP(init)(void);
int64_t STEP(next_date)(void);
int64_t STEP(step)(int64_t now);
int64_t STEP(word)(void);
int64_t STEP(block)(void);

static int64_t STEP(how), STEP(how_word), STEP(how_block);
static jmp_buf STEP(back);

#define sci_main STEP(main)
#define sci_start STEP(start)
#define sci_event STEP(event)
#define sci_val STEP(val)
#define sci_end STEP(end)
#define sci_stop STEP(stop)
#define sci_more STEP(more)
#define sci_input STEP(take)
#define sci_until STEP(until)
#define sci_limit STEP(limit)

static void sci_start(void) {}
static void sci_event(int64_t date, int64_t block, int64_t port) {
  (void)date;
  (void)block;
  (void)port;
}
static void sci_val(int64_t block, int64_t port, int64_t element, int64_t value) { STEP(value)(block, port, element, value); }
/* An end by the number of events comes of `sci_main` alone, which is asked for none: there the first event has been chosen. */
static void sci_end(int64_t word) {
  if (word != 1) {
    STEP(how) = STEP(over);
    STEP(how_word) = word;
  }
  longjmp(STEP(back), 1);
}
static void sci_stop(int64_t word, int64_t block, int64_t unused) {
  (void)unused;
  STEP(how) = STEP(stopped);
  STEP(how_word) = word;
  STEP(how_block) = block;
  longjmp(STEP(back), 1);
}
static int64_t sci_more(int64_t column) {
  (void)column;
  return 1;
}
static int64_t sci_input(int64_t column) { return STEP(input)(column); }
static int64_t sci_until(void) { return INT64_C(1) << 62; }
static int64_t sci_limit(void) { return 0; }

#include STEP_FILE

int64_t STEP(init)(void) {
  if (setjmp(STEP(back)) == 0) sci_main();
  return STEP(how);
}

int64_t STEP(next_date)(void) { return STEP(how) == STEP(goes_on) ? d2 : -1; }

/* One date may have several events. Where nothing is pending the program tells that the run is over. */
int64_t STEP(step)(int64_t now) {
  if (setjmp(STEP(back)) == 0) {
    while (STEP(how) == STEP(goes_on) && d2 <= now) g4();
  }
  return STEP(how);
}

int64_t STEP(word)(void) { return STEP(how_word); }
int64_t STEP(block)(void) { return STEP(how_block); }

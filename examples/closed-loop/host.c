/* A host that closes the loop: the controller of controller.json, and a motor in C in the place of the one in loop.json.

   usage: NAME UNTIL, the last date in milliseconds

   For each event it prints a line: the date, the speed that is wanted, the speed, and the controller's error, integral and drive. */
#include <inttypes.h>
#include <stdint.h>
#include <stdio.h>
#include <stdlib.h>

#include "controller.h"

void sci_main(void);

#define STEP 2 /* milliseconds from one step of the motor to the next */

static int64_t until, now, next_step;
static int32_t turning;
static sci_wanted_t wanted;
static sci_speed_t speed;
/* Unknown before the controller's first values; the motor stands still then. */
static sci_controller_drive_t drive;
static sci_controller_error_t error;
static sci_controller_integral_t integral;

/* An eighth, rounded down. */
static int32_t eighth(int32_t value) { return value >= 0 ? value / 8 : -((7 - value) / 8); }

/* On a target nothing stands here: the motor turns by itself. */
static void turn(void) {
  speed = (sci_speed_t)(turning > SCI_SPEED_T_MAX ? SCI_SPEED_T_MAX : turning);
  turning += eighth(3 * drive - turning);
}

static void tell(void) {
  printf("%" PRId64 " %d %d %d %d %d\n", now, (int)wanted, (int)speed, (int)error, (int)integral, (int)drive);
}

void sci_start(void) {}

/* Of one date the controller's event comes before the motor's step. On a target this waits for the date. */
void sci_event(int64_t date, int64_t block, int64_t port) {
  (void)port;
  if (block != SCI_TICK) exit(1);
  if (date > 0) tell();
  now = date;
  for (; next_step < date; next_step += STEP) turn();
}

int64_t sci_more(int64_t column) { return column >= 1 && column <= SCI_COLUMNS; }

int64_t sci_input(int64_t column) {
  switch (column) {
    case SCI_WANTED_COLUMN:
      wanted = now < 30 * SCI_TICK_TICKS ? 600 : 1500;
      return wanted;
    case SCI_SPEED_COLUMN:
      return speed;
    default:
      exit(1);
  }
}

/* On a target the drive goes to the motor here. */
void sci_val(int64_t block, int64_t port, int64_t element, int64_t value) {
  (void)port;
  (void)element;
  switch (block) {
    case SCI_CONTROLLER_DRIVE:
      drive = (sci_controller_drive_t)value;
      break;
    case SCI_CONTROLLER_ERROR:
      error = (sci_controller_error_t)value;
      break;
    case SCI_CONTROLLER_INTEGRAL:
      integral = (sci_controller_integral_t)value;
      break;
    default:
      break;
  }
}

void sci_end(int64_t how) {
  (void)how;
  tell();
  exit(0);
}

void sci_stop(int64_t why, int64_t block, int64_t unused) {
  (void)why;
  (void)block;
  (void)unused;
  exit(6);
}

int64_t sci_until(void) { return until; }
int64_t sci_limit(void) { return 1000000; }

int main(int argc, char **argv) {
  if (argc != 2) return 2;
  until = strtoll(argv[1], NULL, 10);
  sci_main();
  return 0;
}

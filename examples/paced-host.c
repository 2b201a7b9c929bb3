/* A host that paces a generated program by the clock: an event of date d comes d ticks after the beginning.

   usage: NAME TICK UNTIL LIMIT, the length of a tick in nanoseconds, the last date and the most events

   A sensor takes the next whole number of standard input, whatever its column; it has to be within the sensor's type. The trace
   comes on standard output, line by line, and at the end the greatest delay of an event behind its date on standard error. */
#include <errno.h>
#include <inttypes.h>
#include <stdint.h>
#include <stdio.h>
#include <stdlib.h>
#include <time.h>

#define SECOND INT64_C(1000000000)

void sci_main(void);

static int64_t tick, until, limit, latest, reading;
static struct timespec begin;

static int64_t passed(void) {
  struct timespec now;
  clock_gettime(CLOCK_MONOTONIC, &now);
  return ((int64_t)now.tv_sec - (int64_t)begin.tv_sec) * SECOND + (int64_t)now.tv_nsec - (int64_t)begin.tv_nsec;
}

/* Waits until so many nanoseconds have passed since the beginning; a signal doesn't end the wait. */
static void wait_for(int64_t due) {
  int64_t part = (int64_t)begin.tv_nsec + due % SECOND;
  struct timespec when;
  when.tv_sec = begin.tv_sec + (time_t)(due / SECOND + part / SECOND);
  when.tv_nsec = (long)(part % SECOND);
  while (clock_nanosleep(CLOCK_MONOTONIC, TIMER_ABSTIME, &when, NULL) == EINTR) {
  }
}

static void finish(int status) {
  fprintf(stderr, "at most %" PRId64 " ns late\n", latest);
  exit(status);
}

void sci_start(void) { puts("start"); }

void sci_event(int64_t date, int64_t block, int64_t port) {
  int64_t late;
  wait_for(date * tick);
  late = passed() - date * tick;
  if (late > latest) latest = late;
  printf("event %" PRId64 " %" PRId64 " %" PRId64 "\n", date, block, port);
}

/* On a target this hands the value of an output that is led out to its actuator. */
void sci_val(int64_t block, int64_t port, int64_t element, int64_t value) {
  printf("val %" PRId64 " %" PRId64 " %" PRId64 " %" PRId64 "\n", block, port, element, value);
}

void sci_end(int64_t how) {
  static const char *const words[] = {"halt", "events", "empty", "until"};
  printf("end %s\n", words[how]);
  finish(0);
}

void sci_stop(int64_t why, int64_t block, int64_t unused) {
  static const char *const words[] = {"overflow", "zero", "input"};
  (void)unused;
  printf("stop %s %" PRId64 "\n", words[why], block);
  finish(6);
}

/* On a target this answers 1, and `sci_input` what is measured, brought into the range of the sensor's type. */
int64_t sci_more(int64_t column) {
  (void)column;
  return scanf("%" SCNd64, &reading) == 1;
}

int64_t sci_input(int64_t column) {
  (void)column;
  return reading;
}

int64_t sci_until(void) { return until; }
int64_t sci_limit(void) { return limit; }

int main(int argc, char **argv) {
  if (argc != 4) return 2;
  tick = strtoll(argv[1], NULL, 10);
  until = strtoll(argv[2], NULL, 10);
  limit = strtoll(argv[3], NULL, 10);
  if (tick < 1 || until < 0 || until > INT64_MAX / tick) return 2;
  setvbuf(stdout, NULL, _IOLBF, BUFSIZ);
  clock_gettime(CLOCK_MONOTONIC, &begin);
  sci_main();
  return 0;
}

/* A host that the compiler may draw into a generated program: values of the outputs that OUTPUT numbers are given on, all others are dropped. OUTPUT is an
   expression over block b and port p: the number of an output, or 0. With KEEP the values of the reaction of start aren't given on, which C by hand has
   not. */
#include <setjmp.h>

#include "io.h"

static jmp_buf over;

#ifdef KEEP
static int has_begun;
#else
enum { has_begun = 1 };
#endif

static inline void sci_start(void) {}
static inline void sci_event(int64_t date, int64_t b, int64_t p) {
  (void)date, (void)b, (void)p;
#ifdef KEEP
  has_begun = 1;
#endif
}
static inline __attribute__((always_inline)) void sci_val(int64_t b, int64_t p, int64_t element, int64_t value) {
  int output = OUTPUT;
  (void)b, (void)p, (void)element;
  if (output && has_begun) give(output, (int32_t)value);
}
static inline void sci_end(int64_t how) {
  (void)how;
  longjmp(over, 1);
}
static inline void sci_stop(int64_t word, int64_t b, int64_t p) {
  (void)word, (void)b, (void)p;
  longjmp(over, 1);
}
static inline int64_t sci_more(int64_t column) {
  (void)column;
  return 1;
}
static inline int64_t sci_input(int64_t column) { return take((int)column); }
static inline int64_t sci_until(void) { return UNTIL; }
static inline int64_t sci_limit(void) { return events; }

void sci_main(void);
void run(void) {
  if (!setjmp(over)) sci_main();
}

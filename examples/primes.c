#include <stdint.h>
extern void sci_start(void);
extern void sci_event(int64_t a, int64_t b, int64_t c);
extern void sci_val(int64_t a, int64_t b, int64_t c, int64_t d);
extern void sci_end(int64_t a);
extern void sci_stop(int64_t a, int64_t b, int64_t c);
extern int64_t sci_more(int64_t a);
extern int64_t sci_input(int64_t a);
extern int64_t sci_until(void);
extern int64_t sci_limit(void);
static int64_t a1[100];
static int64_t i1;
static int64_t j1;
static int64_t p1;
void sci_main(void) {
  sci_start();
  for (i1 = INT64_C(0); i1 < INT64_C(98); i1 = i1 + INT64_C(1)) {
    p1 = (i1 + INT64_C(2));
    if ((int64_t)(!a1[p1])) {
      sci_val(INT64_C(1), INT64_C(1), INT64_C(1), p1);
      for (j1 = INT64_C(0); j1 < INT64_C(100); j1 = j1 + INT64_C(1)) {
        if ((int64_t)((j1 % p1) == INT64_C(0))) {
          a1[j1] = INT64_C(1);
        }
      }
    }
  }
  sci_end(INT64_C(2));
}

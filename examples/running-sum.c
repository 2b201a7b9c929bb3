#include <stdint.h>
extern void sci_start(void);
extern void sci_event(int64_t a, int64_t b, int64_t c);
extern void sci_val(int64_t a, int64_t b, int64_t c, int64_t d);
extern void sci_end(int64_t a);
extern void sci_stop(int64_t a, int64_t b, int64_t c);
extern int64_t sci_more(int64_t a);
extern int64_t sci_input(int64_t a);
extern int64_t sci_until(void);
extern int64_t sci_limit(void);
static int64_t s1;
static int64_t v1;
static int64_t m1;
static int64_t k1;
static int64_t n1;
static void f1(void) {
  v1 = sci_input(INT64_C(1));
  s1 = (s1 + v1);
  sci_event(k1, INT64_C(1), INT64_C(1));
  sci_val(INT64_C(2), INT64_C(1), INT64_C(1), s1);
}
void sci_main(void) {
  sci_start();
  n1 = sci_limit();
  for (k1 = INT64_C(0); k1 < n1; k1 = k1 + INT64_C(1)) {
    m1 = sci_more(INT64_C(1));
    if (m1) {
      f1();
    } else {
      sci_stop(INT64_C(2), INT64_C(2), INT64_C(0));
    }
  }
  sci_end(INT64_C(1));
}

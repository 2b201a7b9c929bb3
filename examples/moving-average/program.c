#include <stdint.h>
extern void sci_start(void);
extern void sci_event(int64_t a, int64_t b, int64_t c);
extern void sci_val(int64_t a, int64_t b, int64_t c, int64_t d);
extern void sci_end(int64_t a);
extern void sci_stop(int64_t a, int64_t b, int64_t c);
extern int64_t sci_more(int64_t a);
extern int64_t sci_input(int64_t a);
extern int64_t sci_until(void);
extern int64_t sci_limit(void);
static int64_t v1[5];
static int64_t v2[5];
static int64_t v6[1];
static int64_t t1;
static int64_t n1;
static int64_t i1;
static int64_t d2;
static int64_t u1;
static int64_t d1;
static void f1(void) {
}
static void f2(void) {
  t1 = sci_more(INT64_C(1));
  if (t1) {
    v1[INT64_C(0)] = sci_input(INT64_C(1));
  } else {
    sci_stop(INT64_C(2), INT64_C(2), INT64_C(0));
  }
}
static void f3(void) {
  v1[INT64_C(1)] = v2[INT64_C(0)];
}
static void f4(void) {
  t1 = INT64_C(0);
  t1 = (t1 + v1[INT64_C(3)]);
  t1 = (t1 + v1[INT64_C(0)]);
  t1 = (t1 - v1[INT64_C(1)]);
  t1 = ((-INT64_C(2147483648)) + ((((t1 - (-INT64_C(2147483648))) % INT64_C(4294967296)) + INT64_C(4294967296)) % INT64_C(4294967296)));
  v1[INT64_C(2)] = t1;
}
static void f5(void) {
  v1[INT64_C(3)] = v2[INT64_C(4)];
}
static void f6(void) {
  v1[INT64_C(4)] = ((v1[INT64_C(2)] - (((v1[INT64_C(2)] % INT64_C(4)) + INT64_C(4)) % INT64_C(4))) / INT64_C(4));
}
static void g3(void) {
  d2 = v6[INT64_C(0)];
}
static void s0(void) {
  sci_start();
}
static void s1(void) {
  sci_event(d1, INT64_C(1), INT64_C(1));
  f1();
  f2();
  f3();
  f5();
  f4();
  f6();
  sci_val(INT64_C(2), INT64_C(1), INT64_C(1), v1[INT64_C(0)]);
  sci_val(INT64_C(3), INT64_C(1), INT64_C(1), v1[INT64_C(1)]);
  sci_val(INT64_C(4), INT64_C(1), INT64_C(1), v1[INT64_C(2)]);
  sci_val(INT64_C(5), INT64_C(1), INT64_C(1), v1[INT64_C(3)]);
  sci_val(INT64_C(6), INT64_C(1), INT64_C(1), v1[INT64_C(4)]);
  v6[INT64_C(0)] = (d1 + INT64_C(10));
  for (t1 = INT64_C(0); t1 < INT64_C(3); t1 = t1 + INT64_C(1)) {
    v2[(t1 + INT64_C(0))] = v2[(t1 + INT64_C(1))];
  }
  v2[INT64_C(3)] = v1[INT64_C(0)];
  v2[INT64_C(4)] = v1[INT64_C(2)];
}
static void g4(void) {
  if ((int64_t)(d2 < INT64_C(0))) {
    sci_end(INT64_C(2));
  } else {
    if ((int64_t)(d2 > u1)) {
      sci_end(INT64_C(3));
    } else {
      d1 = v6[INT64_C(0)];
      v6[INT64_C(0)] = (-INT64_C(1));
      s1();
      g3();
    }
  }
}
void sci_main(void) {
  u1 = sci_until();
  n1 = sci_limit();
  s0();
  g3();
  for (i1 = INT64_C(0); i1 < n1; i1 = i1 + INT64_C(1)) {
    g4();
  }
  sci_end(INT64_C(1));
}

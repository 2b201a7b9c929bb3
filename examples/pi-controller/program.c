#include <stdint.h>
extern void sci_start(void);
extern void sci_event(int64_t a, int64_t b, int64_t c);
extern void sci_val(int64_t a, int64_t b, int64_t c, int64_t d);
extern void sci_end(int64_t a);
extern void sci_stop(int64_t a, int64_t b, int64_t c);
extern int64_t sci_more(int64_t a);
extern int64_t sci_input(int64_t a);
extern int64_t sci_until(void);
extern int64_t sci_limit(void);
static int64_t v1[10];
static int64_t v2[1];
static int64_t v6[1];
static int64_t t1;
static int64_t n1;
static int64_t i1;
static int64_t d2;
static int64_t u1;
static int64_t d1;
static void f1(void) {
}
static void f2(void) {
  t1 = sci_more(INT64_C(1));
  if (t1) {
    v1[INT64_C(0)] = sci_input(INT64_C(1));
  } else {
    sci_stop(INT64_C(2), INT64_C(2), INT64_C(0));
  }
}
static void f3(void) {
  t1 = sci_more(INT64_C(2));
  if (t1) {
    v1[INT64_C(1)] = sci_input(INT64_C(2));
  } else {
    sci_stop(INT64_C(2), INT64_C(3), INT64_C(0));
  }
}
static void f4(void) {
  t1 = INT64_C(0);
  t1 = (t1 + v1[INT64_C(0)]);
  t1 = (t1 - v1[INT64_C(1)]);
  if ((int64_t)(t1 < (-INT64_C(32768)))) {
    t1 = (-INT64_C(32768));
  }
  if ((int64_t)(t1 > INT64_C(32767))) {
    t1 = INT64_C(32767);
  }
  v1[INT64_C(2)] = t1;
}
static void f5(void) {
  t1 = (INT64_C(2) * v1[INT64_C(2)]);
  if ((int64_t)(t1 < (-INT64_C(32768)))) {
    t1 = (-INT64_C(32768));
  }
  if ((int64_t)(t1 > INT64_C(32767))) {
    t1 = INT64_C(32767);
  }
  v1[INT64_C(3)] = t1;
}
static void f6(void) {
  v1[INT64_C(4)] = v2[INT64_C(0)];
}
static void f7(void) {
  t1 = INT64_C(0);
  t1 = (t1 + v1[INT64_C(3)]);
  t1 = (t1 + v1[INT64_C(4)]);
  if ((int64_t)(t1 < (-INT64_C(32768)))) {
    t1 = (-INT64_C(32768));
  }
  if ((int64_t)(t1 > INT64_C(32767))) {
    t1 = INT64_C(32767);
  }
  v1[INT64_C(5)] = t1;
}
static void f8(void) {
  t1 = v1[INT64_C(5)];
  if ((int64_t)(t1 > INT64_C(1000))) {
    t1 = INT64_C(1000);
  }
  if ((int64_t)(v1[INT64_C(5)] < INT64_C(0))) {
    t1 = INT64_C(0);
  }
  v1[INT64_C(6)] = t1;
}
static void f9(void) {
  t1 = INT64_C(0);
  t1 = (t1 + v1[INT64_C(6)]);
  t1 = (t1 - v1[INT64_C(4)]);
  if ((int64_t)(t1 < (-INT64_C(32768)))) {
    t1 = (-INT64_C(32768));
  }
  if ((int64_t)(t1 > INT64_C(32767))) {
    t1 = INT64_C(32767);
  }
  v1[INT64_C(7)] = t1;
}
static void f10(void) {
  v1[INT64_C(8)] = ((v1[INT64_C(7)] - (((v1[INT64_C(7)] % INT64_C(8)) + INT64_C(8)) % INT64_C(8))) / INT64_C(8));
}
static void f11(void) {
  t1 = INT64_C(0);
  t1 = (t1 + v1[INT64_C(4)]);
  t1 = (t1 + v1[INT64_C(8)]);
  if ((int64_t)(t1 < (-INT64_C(32768)))) {
    t1 = (-INT64_C(32768));
  }
  if ((int64_t)(t1 > INT64_C(32767))) {
    t1 = INT64_C(32767);
  }
  v1[INT64_C(9)] = t1;
}
static void g3(void) {
  d2 = v6[INT64_C(0)];
}
static void s0(void) {
  sci_start();
}
static void s1(void) {
  sci_event(d1, INT64_C(1), INT64_C(1));
  f1();
  f2();
  f3();
  f6();
  f4();
  f5();
  f7();
  f8();
  f9();
  f10();
  f11();
  sci_val(INT64_C(2), INT64_C(1), INT64_C(1), v1[INT64_C(0)]);
  sci_val(INT64_C(3), INT64_C(1), INT64_C(1), v1[INT64_C(1)]);
  sci_val(INT64_C(4), INT64_C(1), INT64_C(1), v1[INT64_C(2)]);
  sci_val(INT64_C(5), INT64_C(1), INT64_C(1), v1[INT64_C(3)]);
  sci_val(INT64_C(6), INT64_C(1), INT64_C(1), v1[INT64_C(4)]);
  sci_val(INT64_C(7), INT64_C(1), INT64_C(1), v1[INT64_C(5)]);
  sci_val(INT64_C(8), INT64_C(1), INT64_C(1), v1[INT64_C(6)]);
  sci_val(INT64_C(9), INT64_C(1), INT64_C(1), v1[INT64_C(7)]);
  sci_val(INT64_C(10), INT64_C(1), INT64_C(1), v1[INT64_C(8)]);
  sci_val(INT64_C(11), INT64_C(1), INT64_C(1), v1[INT64_C(9)]);
  v6[INT64_C(0)] = (d1 + INT64_C(10));
  v2[INT64_C(0)] = v1[INT64_C(9)];
}
static void g4(void) {
  if ((int64_t)(d2 < INT64_C(0))) {
    sci_end(INT64_C(2));
  } else {
    if ((int64_t)(d2 > u1)) {
      sci_end(INT64_C(3));
    } else {
      d1 = v6[INT64_C(0)];
      v6[INT64_C(0)] = (-INT64_C(1));
      s1();
      g3();
    }
  }
}
void sci_main(void) {
  u1 = sci_until();
  n1 = sci_limit();
  s0();
  g3();
  for (i1 = INT64_C(0); i1 < n1; i1 = i1 + INT64_C(1)) {
    g4();
  }
  sci_end(INT64_C(1));
}

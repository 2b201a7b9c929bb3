#include <stdint.h>
extern void sci_start(void);
extern void sci_event(int64_t a, int64_t b, int64_t c);
extern void sci_val(int64_t a, int64_t b, int64_t c, int64_t d);
extern void sci_end(int64_t a);
extern void sci_stop(int64_t a, int64_t b, int64_t c);
extern int64_t sci_more(int64_t a);
extern int64_t sci_input(int64_t a);
extern int64_t sci_until(void);
extern int64_t sci_limit(void);
static int64_t v1[50];
static int64_t v2[8];
static int64_t v6[1];
static int64_t t1;
static int64_t t2;
static int64_t n1;
static int64_t i1;
static int64_t d2;
static int64_t u1;
static int64_t d1;
static void f1(void) {
}
static void f2(void) {
  t1 = sci_more(INT64_C(1));
  if (t1) {
    v1[INT64_C(0)] = sci_input(INT64_C(1));
  } else {
    sci_stop(INT64_C(2), INT64_C(2), INT64_C(0));
  }
}
static void f3(void) {
  t1 = v1[INT64_C(0)];
  if ((int64_t)((int64_t)(t1 < (-INT64_C(2147483648))) || (int64_t)(t1 > INT64_C(2147483647)))) {
    sci_stop(INT64_C(0), INT64_C(3), INT64_C(0));
  } else {
    v1[INT64_C(1)] = t1;
  }
}
static void f4(void) {
  for (t1 = INT64_C(0); t1 < INT64_C(8); t1 = t1 + INT64_C(1)) {
    v1[(t1 + INT64_C(2))] = v2[(t1 + INT64_C(0))];
  }
}
static void f5(void) {
  v1[INT64_C(10)] = v1[INT64_C(2)];
  v1[INT64_C(11)] = v1[INT64_C(3)];
  v1[INT64_C(12)] = v1[INT64_C(4)];
  v1[INT64_C(13)] = v1[INT64_C(5)];
  v1[INT64_C(14)] = v1[INT64_C(6)];
  v1[INT64_C(15)] = v1[INT64_C(7)];
  v1[INT64_C(16)] = v1[INT64_C(8)];
}
static void f6(void) {
  v1[INT64_C(17)] = v1[INT64_C(1)];
  v1[INT64_C(18)] = v1[INT64_C(10)];
  v1[INT64_C(19)] = v1[INT64_C(11)];
  v1[INT64_C(20)] = v1[INT64_C(12)];
  v1[INT64_C(21)] = v1[INT64_C(13)];
  v1[INT64_C(22)] = v1[INT64_C(14)];
  v1[INT64_C(23)] = v1[INT64_C(15)];
  v1[INT64_C(24)] = v1[INT64_C(16)];
}
static void f7(void) {
  v1[INT64_C(25)] = INT64_C(1);
  v1[INT64_C(26)] = INT64_C(3);
  v1[INT64_C(27)] = INT64_C(6);
  v1[INT64_C(28)] = INT64_C(10);
  v1[INT64_C(29)] = INT64_C(10);
  v1[INT64_C(30)] = INT64_C(6);
  v1[INT64_C(31)] = INT64_C(3);
  v1[INT64_C(32)] = INT64_C(1);
}
static void f8(void) {
  for (t2 = INT64_C(0); t2 < INT64_C(8); t2 = t2 + INT64_C(1)) {
    t1 = (v1[(t2 + INT64_C(17))] * v1[(t2 + INT64_C(25))]);
    if ((int64_t)((int64_t)(t1 < (-INT64_C(2147483648))) || (int64_t)(t1 > INT64_C(2147483647)))) {
      sci_stop(INT64_C(0), INT64_C(8), INT64_C(0));
    } else {
      v1[(t2 + INT64_C(33))] = t1;
    }
  }
}
static void f9(void) {
  for (t1 = INT64_C(0); t1 < INT64_C(8); t1 = t1 + INT64_C(1)) {
    v1[(t1 + INT64_C(41))] = v1[(t1 + INT64_C(33))];
  }
}
static void f10(void) {
  t1 = INT64_C(0);
  t1 = (t1 + v1[INT64_C(41)]);
  t1 = (t1 + v1[INT64_C(42)]);
  t1 = (t1 + v1[INT64_C(43)]);
  t1 = (t1 + v1[INT64_C(44)]);
  t1 = (t1 + v1[INT64_C(45)]);
  t1 = (t1 + v1[INT64_C(46)]);
  t1 = (t1 + v1[INT64_C(47)]);
  t1 = (t1 + v1[INT64_C(48)]);
  if ((int64_t)((int64_t)(t1 < (-INT64_C(2147483648))) || (int64_t)(t1 > INT64_C(2147483647)))) {
    sci_stop(INT64_C(0), INT64_C(10), INT64_C(0));
  } else {
    v1[INT64_C(49)] = t1;
  }
}
static void g3(void) {
  d2 = v6[INT64_C(0)];
}
static void s0(void) {
  sci_start();
  f7();
  for (t1 = INT64_C(0); t1 < INT64_C(8); t1 = t1 + INT64_C(1)) {
    sci_val(INT64_C(7), INT64_C(1), (t1 + INT64_C(1)), v1[(t1 + INT64_C(25))]);
  }
}
static void s1(void) {
  sci_event(d1, INT64_C(1), INT64_C(1));
  f1();
  f2();
  f4();
  f3();
  f5();
  f6();
  f8();
  f9();
  f10();
  sci_val(INT64_C(2), INT64_C(1), INT64_C(1), v1[INT64_C(0)]);
  sci_val(INT64_C(3), INT64_C(1), INT64_C(1), v1[INT64_C(1)]);
  for (t1 = INT64_C(0); t1 < INT64_C(8); t1 = t1 + INT64_C(1)) {
    sci_val(INT64_C(4), INT64_C(1), (t1 + INT64_C(1)), v1[(t1 + INT64_C(2))]);
  }
  for (t1 = INT64_C(0); t1 < INT64_C(7); t1 = t1 + INT64_C(1)) {
    sci_val(INT64_C(5), INT64_C(1), (t1 + INT64_C(1)), v1[(t1 + INT64_C(10))]);
  }
  for (t1 = INT64_C(0); t1 < INT64_C(8); t1 = t1 + INT64_C(1)) {
    sci_val(INT64_C(6), INT64_C(1), (t1 + INT64_C(1)), v1[(t1 + INT64_C(17))]);
  }
  for (t1 = INT64_C(0); t1 < INT64_C(8); t1 = t1 + INT64_C(1)) {
    sci_val(INT64_C(8), INT64_C(1), (t1 + INT64_C(1)), v1[(t1 + INT64_C(33))]);
  }
  sci_val(INT64_C(9), INT64_C(1), INT64_C(1), v1[INT64_C(41)]);
  sci_val(INT64_C(9), INT64_C(2), INT64_C(1), v1[INT64_C(42)]);
  sci_val(INT64_C(9), INT64_C(3), INT64_C(1), v1[INT64_C(43)]);
  sci_val(INT64_C(9), INT64_C(4), INT64_C(1), v1[INT64_C(44)]);
  sci_val(INT64_C(9), INT64_C(5), INT64_C(1), v1[INT64_C(45)]);
  sci_val(INT64_C(9), INT64_C(6), INT64_C(1), v1[INT64_C(46)]);
  sci_val(INT64_C(9), INT64_C(7), INT64_C(1), v1[INT64_C(47)]);
  sci_val(INT64_C(9), INT64_C(8), INT64_C(1), v1[INT64_C(48)]);
  sci_val(INT64_C(10), INT64_C(1), INT64_C(1), v1[INT64_C(49)]);
  v6[INT64_C(0)] = (d1 + INT64_C(1));
  for (t1 = INT64_C(0); t1 < INT64_C(8); t1 = t1 + INT64_C(1)) {
    v2[(t1 + INT64_C(0))] = v1[(t1 + INT64_C(17))];
  }
}
static void g4(void) {
  if ((int64_t)(d2 < INT64_C(0))) {
    sci_end(INT64_C(2));
  } else {
    if ((int64_t)(d2 > u1)) {
      sci_end(INT64_C(3));
    } else {
      d1 = v6[INT64_C(0)];
      v6[INT64_C(0)] = (-INT64_C(1));
      s1();
      g3();
    }
  }
}
void sci_main(void) {
  u1 = sci_until();
  n1 = sci_limit();
  s0();
  g3();
  for (i1 = INT64_C(0); i1 < n1; i1 = i1 + INT64_C(1)) {
    g4();
  }
  sci_end(INT64_C(1));
}

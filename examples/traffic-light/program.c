#include <stdint.h>
extern void sci_start(void);
extern void sci_event(int64_t a, int64_t b, int64_t c);
extern void sci_val(int64_t a, int64_t b, int64_t c, int64_t d);
extern void sci_end(int64_t a);
extern void sci_stop(int64_t a, int64_t b, int64_t c);
extern int64_t sci_more(int64_t a);
extern int64_t sci_input(int64_t a);
extern int64_t sci_until(void);
extern int64_t sci_limit(void);
static int64_t v1[22];
static int64_t v3[13];
static int64_t v4[13];
static int64_t v5[13];
static int64_t v6[4];
static int64_t v7[4];
static int64_t t1;
static int64_t n1;
static int64_t i1;
static int64_t d2;
static int64_t u1;
static int64_t d1;
static int64_t b1;
static int64_t o1;
static void f1(void) {
}
static void f2(void) {
}
static void f3(void) {
}
static void f4(void) {
}
static void f5(void) {
  t1 = sci_more(INT64_C(1));
  if (t1) {
    v1[INT64_C(0)] = sci_input(INT64_C(1));
  } else {
    sci_stop(INT64_C(2), INT64_C(5), INT64_C(0));
  }
}
static void f6(void) {
}
static void f7(void) {
  v1[INT64_C(1)] = INT64_C(1);
  v1[INT64_C(2)] = INT64_C(0);
  v1[INT64_C(3)] = INT64_C(0);
  v1[INT64_C(4)] = INT64_C(1);
}
static void f8(void) {
  v1[INT64_C(5)] = INT64_C(2);
  v1[INT64_C(6)] = INT64_C(0);
  v1[INT64_C(7)] = INT64_C(1);
  v1[INT64_C(8)] = INT64_C(0);
}
static void f9(void) {
  v1[INT64_C(9)] = INT64_C(3);
  v1[INT64_C(10)] = INT64_C(1);
  v1[INT64_C(11)] = INT64_C(0);
  v1[INT64_C(12)] = INT64_C(0);
}
static void f10(void) {
  v1[INT64_C(13)] = INT64_C(4);
  v1[INT64_C(14)] = INT64_C(1);
  v1[INT64_C(15)] = INT64_C(1);
  v1[INT64_C(16)] = INT64_C(0);
}
static void f11(void) {
  if (((v3[INT64_C(10)] / INT64_C(1)) % INT64_C(2))) {
    for (t1 = INT64_C(0); t1 < INT64_C(4); t1 = t1 + INT64_C(1)) {
      v1[(t1 + INT64_C(17))] = v1[(t1 + INT64_C(1))];
    }
  } else {
    if (((v3[INT64_C(10)] / INT64_C(2)) % INT64_C(2))) {
      for (t1 = INT64_C(0); t1 < INT64_C(4); t1 = t1 + INT64_C(1)) {
        v1[(t1 + INT64_C(17))] = v1[(t1 + INT64_C(5))];
      }
    } else {
      if (((v3[INT64_C(10)] / INT64_C(4)) % INT64_C(2))) {
        for (t1 = INT64_C(0); t1 < INT64_C(4); t1 = t1 + INT64_C(1)) {
          v1[(t1 + INT64_C(17))] = v1[(t1 + INT64_C(9))];
        }
      } else {
        for (t1 = INT64_C(0); t1 < INT64_C(4); t1 = t1 + INT64_C(1)) {
          v1[(t1 + INT64_C(17))] = v1[(t1 + INT64_C(13))];
        }
      }
    }
  }
}
static void f12(void) {
  v1[INT64_C(21)] = v1[INT64_C(17)];
}
static void f13(void) {
}
static void g3(void) {
  b1 = INT64_C(0);
  d2 = v6[INT64_C(0)];
  if ((int64_t)((int64_t)((int64_t)(d2 < INT64_C(0)) || (int64_t)(v6[INT64_C(1)] <= d2)) && (int64_t)((int64_t)(v6[INT64_C(1)] >= INT64_C(0)) && (int64_t)((int64_t)(v6[INT64_C(1)] != d2) || (int64_t)(v7[INT64_C(1)] < v7[b1]))))) {
    b1 = INT64_C(1);
    d2 = v6[INT64_C(1)];
  }
  if ((int64_t)((int64_t)((int64_t)(d2 < INT64_C(0)) || (int64_t)(v6[INT64_C(2)] <= d2)) && (int64_t)((int64_t)(v6[INT64_C(2)] >= INT64_C(0)) && (int64_t)((int64_t)(v6[INT64_C(2)] != d2) || (int64_t)(v7[INT64_C(2)] < v7[b1]))))) {
    b1 = INT64_C(2);
    d2 = v6[INT64_C(2)];
  }
  if ((int64_t)((int64_t)((int64_t)(d2 < INT64_C(0)) || (int64_t)(v6[INT64_C(3)] <= d2)) && (int64_t)((int64_t)(v6[INT64_C(3)] >= INT64_C(0)) && (int64_t)((int64_t)(v6[INT64_C(3)] != d2) || (int64_t)(v7[INT64_C(3)] < v7[b1]))))) {
    b1 = INT64_C(3);
    d2 = v6[INT64_C(3)];
  }
}
static void s0(void) {
  sci_start();
  f7();
  f8();
  f9();
  f10();
  for (t1 = INT64_C(0); t1 < INT64_C(4); t1 = t1 + INT64_C(1)) {
    sci_val(INT64_C(7), INT64_C(1), (t1 + INT64_C(1)), v1[(t1 + INT64_C(1))]);
  }
  for (t1 = INT64_C(0); t1 < INT64_C(4); t1 = t1 + INT64_C(1)) {
    sci_val(INT64_C(8), INT64_C(1), (t1 + INT64_C(1)), v1[(t1 + INT64_C(5))]);
  }
  for (t1 = INT64_C(0); t1 < INT64_C(4); t1 = t1 + INT64_C(1)) {
    sci_val(INT64_C(9), INT64_C(1), (t1 + INT64_C(1)), v1[(t1 + INT64_C(9))]);
  }
  for (t1 = INT64_C(0); t1 < INT64_C(4); t1 = t1 + INT64_C(1)) {
    sci_val(INT64_C(10), INT64_C(1), (t1 + INT64_C(1)), v1[(t1 + INT64_C(13))]);
  }
}
static void s1(void) {
  sci_event(d1, INT64_C(1), INT64_C(1));
  v5[INT64_C(5)] = INT64_C(0);
  v4[INT64_C(10)] = INT64_C(0);
  v4[INT64_C(11)] = INT64_C(0);
  v4[INT64_C(12)] = INT64_C(0);
  v5[INT64_C(12)] = INT64_C(0);
  f5();
  f6();
  v5[INT64_C(5)] = (INT64_C(2) - (int64_t)(v1[INT64_C(0)] > INT64_C(0)));
  v3[INT64_C(10)] = INT64_C(0);
  if ((int64_t)(v5[INT64_C(5)] == INT64_C(1))) {
    v4[INT64_C(10)] = INT64_C(1);
    v3[INT64_C(10)] = (v3[INT64_C(10)] + ((INT64_C(1) - ((v3[INT64_C(10)] / INT64_C(2)) % INT64_C(2))) * INT64_C(2)));
  }
  if ((int64_t)(v5[INT64_C(5)] == INT64_C(2))) {
    v4[INT64_C(10)] = INT64_C(1);
    v3[INT64_C(10)] = (v3[INT64_C(10)] + ((INT64_C(1) - ((v3[INT64_C(10)] / INT64_C(1)) % INT64_C(2))) * INT64_C(1)));
  }
  if (v4[INT64_C(10)]) {
    f11();
  }
  if ((int64_t)(v5[INT64_C(5)] == INT64_C(1))) {
    v4[INT64_C(11)] = INT64_C(1);
  }
  if ((int64_t)(v5[INT64_C(5)] == INT64_C(2))) {
    v4[INT64_C(11)] = INT64_C(1);
  }
  if (v4[INT64_C(11)]) {
    f12();
  }
  if ((int64_t)(v5[INT64_C(5)] == INT64_C(1))) {
    v4[INT64_C(12)] = INT64_C(1);
  }
  if ((int64_t)(v5[INT64_C(5)] == INT64_C(2))) {
    v4[INT64_C(12)] = INT64_C(1);
  }
  if (v4[INT64_C(12)]) {
    f13();
    v5[INT64_C(12)] = (((int64_t)(v1[INT64_C(21)] >= INT64_C(1)) * (((int64_t)(v1[INT64_C(21)] <= INT64_C(4)) * v1[INT64_C(21)]) + ((int64_t)(v1[INT64_C(21)] > INT64_C(4)) * INT64_C(4)))) + (int64_t)(v1[INT64_C(21)] < INT64_C(1)));
  }
  if ((int64_t)(v5[INT64_C(12)] == INT64_C(1))) {
    f1();
  }
  if ((int64_t)(v5[INT64_C(12)] == INT64_C(2))) {
    f2();
  }
  if ((int64_t)(v5[INT64_C(12)] == INT64_C(3))) {
    f3();
  }
  if ((int64_t)(v5[INT64_C(12)] == INT64_C(4))) {
    f4();
  }
  sci_val(INT64_C(5), INT64_C(1), INT64_C(1), v1[INT64_C(0)]);
  if (v4[INT64_C(10)]) {
    for (t1 = INT64_C(0); t1 < INT64_C(4); t1 = t1 + INT64_C(1)) {
      sci_val(INT64_C(11), INT64_C(1), (t1 + INT64_C(1)), v1[(t1 + INT64_C(17))]);
    }
  }
  if (v4[INT64_C(11)]) {
    sci_val(INT64_C(12), INT64_C(1), INT64_C(1), v1[INT64_C(21)]);
  }
  if ((int64_t)(v5[INT64_C(12)] == INT64_C(1))) {
    v6[INT64_C(0)] = (d1 + INT64_C(10));
    v7[INT64_C(0)] = o1;
    o1 = (o1 + INT64_C(1));
  }
  if ((int64_t)(v5[INT64_C(12)] == INT64_C(2))) {
    v6[INT64_C(1)] = (d1 + INT64_C(3));
    v7[INT64_C(1)] = o1;
    o1 = (o1 + INT64_C(1));
  }
  if ((int64_t)(v5[INT64_C(12)] == INT64_C(3))) {
    v6[INT64_C(2)] = (d1 + INT64_C(12));
    v7[INT64_C(2)] = o1;
    o1 = (o1 + INT64_C(1));
  }
  if ((int64_t)(v5[INT64_C(12)] == INT64_C(4))) {
    v6[INT64_C(3)] = (d1 + INT64_C(2));
    v7[INT64_C(3)] = o1;
    o1 = (o1 + INT64_C(1));
  }
}
static void s2(void) {
  sci_event(d1, INT64_C(2), INT64_C(1));
  v5[INT64_C(12)] = INT64_C(0);
  v3[INT64_C(10)] = INT64_C(4);
  f11();
  f12();
  f13();
  v5[INT64_C(12)] = (((int64_t)(v1[INT64_C(21)] >= INT64_C(1)) * (((int64_t)(v1[INT64_C(21)] <= INT64_C(4)) * v1[INT64_C(21)]) + ((int64_t)(v1[INT64_C(21)] > INT64_C(4)) * INT64_C(4)))) + (int64_t)(v1[INT64_C(21)] < INT64_C(1)));
  if ((int64_t)(v5[INT64_C(12)] == INT64_C(1))) {
    f1();
  }
  if ((int64_t)(v5[INT64_C(12)] == INT64_C(2))) {
    f2();
  }
  if ((int64_t)(v5[INT64_C(12)] == INT64_C(3))) {
    f3();
  }
  if ((int64_t)(v5[INT64_C(12)] == INT64_C(4))) {
    f4();
  }
  for (t1 = INT64_C(0); t1 < INT64_C(4); t1 = t1 + INT64_C(1)) {
    sci_val(INT64_C(11), INT64_C(1), (t1 + INT64_C(1)), v1[(t1 + INT64_C(17))]);
  }
  sci_val(INT64_C(12), INT64_C(1), INT64_C(1), v1[INT64_C(21)]);
  if ((int64_t)(v5[INT64_C(12)] == INT64_C(1))) {
    v6[INT64_C(0)] = (d1 + INT64_C(10));
    v7[INT64_C(0)] = o1;
    o1 = (o1 + INT64_C(1));
  }
  if ((int64_t)(v5[INT64_C(12)] == INT64_C(2))) {
    v6[INT64_C(1)] = (d1 + INT64_C(3));
    v7[INT64_C(1)] = o1;
    o1 = (o1 + INT64_C(1));
  }
  if ((int64_t)(v5[INT64_C(12)] == INT64_C(3))) {
    v6[INT64_C(2)] = (d1 + INT64_C(12));
    v7[INT64_C(2)] = o1;
    o1 = (o1 + INT64_C(1));
  }
  if ((int64_t)(v5[INT64_C(12)] == INT64_C(4))) {
    v6[INT64_C(3)] = (d1 + INT64_C(2));
    v7[INT64_C(3)] = o1;
    o1 = (o1 + INT64_C(1));
  }
}
static void s3(void) {
  sci_event(d1, INT64_C(3), INT64_C(1));
  v5[INT64_C(12)] = INT64_C(0);
  v3[INT64_C(10)] = INT64_C(8);
  f11();
  f12();
  f13();
  v5[INT64_C(12)] = (((int64_t)(v1[INT64_C(21)] >= INT64_C(1)) * (((int64_t)(v1[INT64_C(21)] <= INT64_C(4)) * v1[INT64_C(21)]) + ((int64_t)(v1[INT64_C(21)] > INT64_C(4)) * INT64_C(4)))) + (int64_t)(v1[INT64_C(21)] < INT64_C(1)));
  if ((int64_t)(v5[INT64_C(12)] == INT64_C(1))) {
    f1();
  }
  if ((int64_t)(v5[INT64_C(12)] == INT64_C(2))) {
    f2();
  }
  if ((int64_t)(v5[INT64_C(12)] == INT64_C(3))) {
    f3();
  }
  if ((int64_t)(v5[INT64_C(12)] == INT64_C(4))) {
    f4();
  }
  for (t1 = INT64_C(0); t1 < INT64_C(4); t1 = t1 + INT64_C(1)) {
    sci_val(INT64_C(11), INT64_C(1), (t1 + INT64_C(1)), v1[(t1 + INT64_C(17))]);
  }
  sci_val(INT64_C(12), INT64_C(1), INT64_C(1), v1[INT64_C(21)]);
  if ((int64_t)(v5[INT64_C(12)] == INT64_C(1))) {
    v6[INT64_C(0)] = (d1 + INT64_C(10));
    v7[INT64_C(0)] = o1;
    o1 = (o1 + INT64_C(1));
  }
  if ((int64_t)(v5[INT64_C(12)] == INT64_C(2))) {
    v6[INT64_C(1)] = (d1 + INT64_C(3));
    v7[INT64_C(1)] = o1;
    o1 = (o1 + INT64_C(1));
  }
  if ((int64_t)(v5[INT64_C(12)] == INT64_C(3))) {
    v6[INT64_C(2)] = (d1 + INT64_C(12));
    v7[INT64_C(2)] = o1;
    o1 = (o1 + INT64_C(1));
  }
  if ((int64_t)(v5[INT64_C(12)] == INT64_C(4))) {
    v6[INT64_C(3)] = (d1 + INT64_C(2));
    v7[INT64_C(3)] = o1;
    o1 = (o1 + INT64_C(1));
  }
}
static void s4(void) {
  sci_event(d1, INT64_C(4), INT64_C(1));
  v5[INT64_C(12)] = INT64_C(0);
  v3[INT64_C(10)] = INT64_C(1);
  f11();
  f12();
  f13();
  v5[INT64_C(12)] = (((int64_t)(v1[INT64_C(21)] >= INT64_C(1)) * (((int64_t)(v1[INT64_C(21)] <= INT64_C(4)) * v1[INT64_C(21)]) + ((int64_t)(v1[INT64_C(21)] > INT64_C(4)) * INT64_C(4)))) + (int64_t)(v1[INT64_C(21)] < INT64_C(1)));
  if ((int64_t)(v5[INT64_C(12)] == INT64_C(1))) {
    f1();
  }
  if ((int64_t)(v5[INT64_C(12)] == INT64_C(2))) {
    f2();
  }
  if ((int64_t)(v5[INT64_C(12)] == INT64_C(3))) {
    f3();
  }
  if ((int64_t)(v5[INT64_C(12)] == INT64_C(4))) {
    f4();
  }
  for (t1 = INT64_C(0); t1 < INT64_C(4); t1 = t1 + INT64_C(1)) {
    sci_val(INT64_C(11), INT64_C(1), (t1 + INT64_C(1)), v1[(t1 + INT64_C(17))]);
  }
  sci_val(INT64_C(12), INT64_C(1), INT64_C(1), v1[INT64_C(21)]);
  if ((int64_t)(v5[INT64_C(12)] == INT64_C(1))) {
    v6[INT64_C(0)] = (d1 + INT64_C(10));
    v7[INT64_C(0)] = o1;
    o1 = (o1 + INT64_C(1));
  }
  if ((int64_t)(v5[INT64_C(12)] == INT64_C(2))) {
    v6[INT64_C(1)] = (d1 + INT64_C(3));
    v7[INT64_C(1)] = o1;
    o1 = (o1 + INT64_C(1));
  }
  if ((int64_t)(v5[INT64_C(12)] == INT64_C(3))) {
    v6[INT64_C(2)] = (d1 + INT64_C(12));
    v7[INT64_C(2)] = o1;
    o1 = (o1 + INT64_C(1));
  }
  if ((int64_t)(v5[INT64_C(12)] == INT64_C(4))) {
    v6[INT64_C(3)] = (d1 + INT64_C(2));
    v7[INT64_C(3)] = o1;
    o1 = (o1 + INT64_C(1));
  }
}
static void g4(void) {
  if ((int64_t)(d2 < INT64_C(0))) {
    sci_end(INT64_C(2));
  } else {
    if ((int64_t)(d2 > u1)) {
      sci_end(INT64_C(3));
    } else {
      d1 = v6[b1];
      v6[b1] = (-INT64_C(1));
      if ((int64_t)(b1 < INT64_C(2))) {
        if ((int64_t)(b1 < INT64_C(1))) {
          s1();
        } else {
          s2();
        }
      } else {
        if ((int64_t)(b1 < INT64_C(3))) {
          s3();
        } else {
          s4();
        }
      }
      g3();
    }
  }
}
void sci_main(void) {
  v6[INT64_C(0)] = (-INT64_C(1));
  v6[INT64_C(1)] = (-INT64_C(1));
  v6[INT64_C(2)] = (-INT64_C(1));
  o1 = INT64_C(1);
  u1 = sci_until();
  n1 = sci_limit();
  s0();
  g3();
  for (i1 = INT64_C(0); i1 < n1; i1 = i1 + INT64_C(1)) {
    g4();
  }
  sci_end(INT64_C(1));
}

#include <stdint.h>
extern void sci_start(void);
extern void sci_event(int64_t a, int64_t b, int64_t c);
extern void sci_val(int64_t a, int64_t b, int64_t c, int64_t d);
extern void sci_end(int64_t a);
extern void sci_stop(int64_t a, int64_t b, int64_t c);
extern int64_t sci_more(int64_t a);
extern int64_t sci_input(int64_t a);
extern int64_t sci_until(void);
extern int64_t sci_limit(void);
static int64_t v1[17];
static int64_t v2[2];
static int64_t v3[20];
static int64_t v5[20];
static int64_t v6[2];
static int64_t v7[2];
static int64_t t1;
static int64_t t2;
static int64_t t3;
static int64_t n1;
static int64_t i1;
static int64_t d2;
static int64_t u1;
static int64_t d1;
static int64_t b1;
static int64_t e1;
static int64_t o1;
static void f1(void) {
}
static void f2(void) {
}
static void f3(void) {
  t1 = sci_more(INT64_C(1));
  if (t1) {
    v1[INT64_C(0)] = sci_input(INT64_C(1));
  } else {
    sci_stop(INT64_C(2), INT64_C(3), INT64_C(0));
  }
}
static void f4(void) {
  v1[INT64_C(1)] = v2[INT64_C(0)];
}
static void f5(void) {
  t1 = (((v1[INT64_C(1)] % INT64_C(256)) + INT64_C(256)) % INT64_C(256));
  t2 = (((v1[INT64_C(0)] % INT64_C(256)) + INT64_C(256)) % INT64_C(256));
  for (t3 = INT64_C(0); t3 < INT64_C(4); t3 = t3 + INT64_C(1)) {
    if (((t1 + t2) % INT64_C(2))) {
      t1 = (t1 + INT64_C(256));
    }
    t1 = (t1 / INT64_C(2));
    t2 = (t2 / INT64_C(2));
    if (((t1 + t2) % INT64_C(2))) {
      t1 = (t1 + INT64_C(256));
    }
    t1 = (t1 / INT64_C(2));
    t2 = (t2 / INT64_C(2));
  }
  v1[INT64_C(2)] = (INT64_C(0) + ((((t1 - INT64_C(0)) % INT64_C(256)) + INT64_C(256)) % INT64_C(256)));
}
static void f6(void) {
  v1[INT64_C(3)] = (INT64_C(0) + (((((v1[INT64_C(1)] * INT64_C(2)) - INT64_C(0)) % INT64_C(256)) + INT64_C(256)) % INT64_C(256)));
}
static void f7(void) {
  v1[INT64_C(4)] = INT64_C(7);
}
static void f8(void) {
  t1 = (((v1[INT64_C(3)] % INT64_C(256)) + INT64_C(256)) % INT64_C(256));
  t2 = (((v1[INT64_C(4)] % INT64_C(256)) + INT64_C(256)) % INT64_C(256));
  for (t3 = INT64_C(0); t3 < INT64_C(4); t3 = t3 + INT64_C(1)) {
    if (((t1 + t2) % INT64_C(2))) {
      t1 = (t1 + INT64_C(256));
    }
    t1 = (t1 / INT64_C(2));
    t2 = (t2 / INT64_C(2));
    if (((t1 + t2) % INT64_C(2))) {
      t1 = (t1 + INT64_C(256));
    }
    t1 = (t1 / INT64_C(2));
    t2 = (t2 / INT64_C(2));
  }
  v1[INT64_C(5)] = (INT64_C(0) + ((((t1 - INT64_C(0)) % INT64_C(256)) + INT64_C(256)) % INT64_C(256)));
}
static void f9(void) {
  if ((int64_t)(v1[INT64_C(1)] >= INT64_C(128))) {
    v1[INT64_C(6)] = v1[INT64_C(5)];
  } else {
    v1[INT64_C(6)] = v1[INT64_C(3)];
  }
}
static void f10(void) {
  if (((v3[INT64_C(9)] / INT64_C(1)) % INT64_C(2))) {
    v1[INT64_C(7)] = v1[INT64_C(2)];
  } else {
    v1[INT64_C(7)] = v1[INT64_C(6)];
  }
}
static void f11(void) {
  v1[INT64_C(8)] = v2[INT64_C(1)];
}
static void f12(void) {
  v1[INT64_C(9)] = INT64_C(1);
}
static void f13(void) {
  t1 = INT64_C(0);
  t1 = (t1 + v1[INT64_C(8)]);
  t1 = (t1 - v1[INT64_C(9)]);
  t1 = ((-INT64_C(128)) + ((((t1 - (-INT64_C(128))) % INT64_C(256)) + INT64_C(256)) % INT64_C(256)));
  v1[INT64_C(10)] = t1;
}
static void f14(void) {
  v1[INT64_C(11)] = INT64_C(8);
}
static void f15(void) {
  if (((v3[INT64_C(14)] / INT64_C(1)) % INT64_C(2))) {
    v1[INT64_C(12)] = v1[INT64_C(11)];
  } else {
    v1[INT64_C(12)] = v1[INT64_C(10)];
  }
}
static void f16(void) {
  v1[INT64_C(13)] = INT64_C(0);
}
static void f17(void) {
  v1[INT64_C(14)] = (-INT64_C(1));
}
static void f18(void) {
  if ((int64_t)(v1[INT64_C(12)] > INT64_C(0))) {
    v1[INT64_C(15)] = v1[INT64_C(13)];
  } else {
    v1[INT64_C(15)] = v1[INT64_C(14)];
  }
}
static void f19(void) {
}
static void f20(void) {
  v1[INT64_C(16)] = v1[INT64_C(7)];
}
static void g3(void) {
  b1 = INT64_C(0);
  d2 = v6[INT64_C(0)];
  if ((int64_t)((int64_t)((int64_t)(d2 < INT64_C(0)) || (int64_t)(v6[INT64_C(1)] <= d2)) && (int64_t)((int64_t)(v6[INT64_C(1)] >= INT64_C(0)) && (int64_t)((int64_t)(v6[INT64_C(1)] != d2) || (int64_t)(v7[INT64_C(1)] < v7[b1]))))) {
    b1 = INT64_C(1);
    d2 = v6[INT64_C(1)];
  }
}
static void s0(void) {
  sci_start();
  f7();
  f12();
  f14();
  f16();
  f17();
  sci_val(INT64_C(7), INT64_C(1), INT64_C(1), v1[INT64_C(4)]);
  sci_val(INT64_C(12), INT64_C(1), INT64_C(1), v1[INT64_C(9)]);
  sci_val(INT64_C(14), INT64_C(1), INT64_C(1), v1[INT64_C(11)]);
  sci_val(INT64_C(16), INT64_C(1), INT64_C(1), v1[INT64_C(13)]);
  sci_val(INT64_C(17), INT64_C(1), INT64_C(1), v1[INT64_C(14)]);
}
static void s1(void) {
  sci_event(d1, INT64_C(1), INT64_C(1));
  v5[INT64_C(18)] = INT64_C(0);
  f1();
  f2();
  f3();
  f4();
  f11();
  f5();
  f6();
  f13();
  f8();
  v3[INT64_C(14)] = INT64_C(1);
  f15();
  f9();
  f18();
  f19();
  v5[INT64_C(18)] = (INT64_C(2) - (int64_t)(v1[INT64_C(12)] > INT64_C(0)));
  v3[INT64_C(9)] = INT64_C(1);
  f10();
  if ((int64_t)(v5[INT64_C(18)] == INT64_C(2))) {
    f20();
  }
  sci_val(INT64_C(3), INT64_C(1), INT64_C(1), v1[INT64_C(0)]);
  sci_val(INT64_C(4), INT64_C(1), INT64_C(1), v1[INT64_C(1)]);
  sci_val(INT64_C(5), INT64_C(1), INT64_C(1), v1[INT64_C(2)]);
  sci_val(INT64_C(6), INT64_C(1), INT64_C(1), v1[INT64_C(3)]);
  sci_val(INT64_C(8), INT64_C(1), INT64_C(1), v1[INT64_C(5)]);
  sci_val(INT64_C(9), INT64_C(1), INT64_C(1), v1[INT64_C(6)]);
  sci_val(INT64_C(10), INT64_C(1), INT64_C(1), v1[INT64_C(7)]);
  sci_val(INT64_C(11), INT64_C(1), INT64_C(1), v1[INT64_C(8)]);
  sci_val(INT64_C(13), INT64_C(1), INT64_C(1), v1[INT64_C(10)]);
  sci_val(INT64_C(15), INT64_C(1), INT64_C(1), v1[INT64_C(12)]);
  sci_val(INT64_C(18), INT64_C(1), INT64_C(1), v1[INT64_C(15)]);
  if ((int64_t)(v5[INT64_C(18)] == INT64_C(2))) {
    sci_val(INT64_C(20), INT64_C(1), INT64_C(1), v1[INT64_C(16)]);
  }
  v6[INT64_C(0)] = (d1 + INT64_C(10));
  v7[INT64_C(0)] = o1;
  o1 = (o1 + INT64_C(1));
  e1 = (((int64_t)(v1[INT64_C(15)] >= INT64_C(0)) * (((int64_t)(v1[INT64_C(15)] <= INT64_C(2147483647)) * v1[INT64_C(15)]) + ((int64_t)(v1[INT64_C(15)] > INT64_C(2147483647)) * INT64_C(2147483647)))) - (int64_t)(v1[INT64_C(15)] < INT64_C(0)));
  if ((int64_t)(e1 >= INT64_C(0))) {
    v6[INT64_C(1)] = (d1 + e1);
    v7[INT64_C(1)] = o1;
    o1 = (o1 + INT64_C(1));
  }
  v2[INT64_C(0)] = v1[INT64_C(7)];
  v2[INT64_C(1)] = v1[INT64_C(12)];
}
static void s2(void) {
  sci_event(d1, INT64_C(2), INT64_C(1));
  v5[INT64_C(18)] = INT64_C(0);
  f2();
  f4();
  f11();
  f5();
  f6();
  f13();
  f8();
  v3[INT64_C(14)] = INT64_C(2);
  f15();
  f9();
  f18();
  f19();
  v5[INT64_C(18)] = (INT64_C(2) - (int64_t)(v1[INT64_C(12)] > INT64_C(0)));
  v3[INT64_C(9)] = INT64_C(2);
  f10();
  if ((int64_t)(v5[INT64_C(18)] == INT64_C(2))) {
    f20();
  }
  sci_val(INT64_C(4), INT64_C(1), INT64_C(1), v1[INT64_C(1)]);
  sci_val(INT64_C(5), INT64_C(1), INT64_C(1), v1[INT64_C(2)]);
  sci_val(INT64_C(6), INT64_C(1), INT64_C(1), v1[INT64_C(3)]);
  sci_val(INT64_C(8), INT64_C(1), INT64_C(1), v1[INT64_C(5)]);
  sci_val(INT64_C(9), INT64_C(1), INT64_C(1), v1[INT64_C(6)]);
  sci_val(INT64_C(10), INT64_C(1), INT64_C(1), v1[INT64_C(7)]);
  sci_val(INT64_C(11), INT64_C(1), INT64_C(1), v1[INT64_C(8)]);
  sci_val(INT64_C(13), INT64_C(1), INT64_C(1), v1[INT64_C(10)]);
  sci_val(INT64_C(15), INT64_C(1), INT64_C(1), v1[INT64_C(12)]);
  sci_val(INT64_C(18), INT64_C(1), INT64_C(1), v1[INT64_C(15)]);
  if ((int64_t)(v5[INT64_C(18)] == INT64_C(2))) {
    sci_val(INT64_C(20), INT64_C(1), INT64_C(1), v1[INT64_C(16)]);
  }
  e1 = (((int64_t)(v1[INT64_C(15)] >= INT64_C(0)) * (((int64_t)(v1[INT64_C(15)] <= INT64_C(2147483647)) * v1[INT64_C(15)]) + ((int64_t)(v1[INT64_C(15)] > INT64_C(2147483647)) * INT64_C(2147483647)))) - (int64_t)(v1[INT64_C(15)] < INT64_C(0)));
  if ((int64_t)(e1 >= INT64_C(0))) {
    v6[INT64_C(1)] = (d1 + e1);
    v7[INT64_C(1)] = o1;
    o1 = (o1 + INT64_C(1));
  }
  v2[INT64_C(0)] = v1[INT64_C(7)];
  v2[INT64_C(1)] = v1[INT64_C(12)];
}
static void g4(void) {
  if ((int64_t)(d2 < INT64_C(0))) {
    sci_end(INT64_C(2));
  } else {
    if ((int64_t)(d2 > u1)) {
      sci_end(INT64_C(3));
    } else {
      d1 = v6[b1];
      v6[b1] = (-INT64_C(1));
      if ((int64_t)(b1 < INT64_C(1))) {
        s1();
      } else {
        s2();
      }
      g3();
    }
  }
}
void sci_main(void) {
  v6[INT64_C(1)] = (-INT64_C(1));
  o1 = INT64_C(1);
  u1 = sci_until();
  n1 = sci_limit();
  s0();
  g3();
  for (i1 = INT64_C(0); i1 < n1; i1 = i1 + INT64_C(1)) {
    g4();
  }
  sci_end(INT64_C(1));
}

#include <stdint.h>
extern void sci_start(void);
extern void sci_event(int64_t a, int64_t b, int64_t c);
extern void sci_val(int64_t a, int64_t b, int64_t c, int64_t d);
extern void sci_end(int64_t a);
extern void sci_stop(int64_t a, int64_t b, int64_t c);
extern int64_t sci_more(int64_t a);
extern int64_t sci_input(int64_t a);
extern int64_t sci_until(void);
extern int64_t sci_limit(void);
static int64_t v1[26];
static int64_t v2[2];
static int64_t v6[3];
static int64_t v7[3];
static int64_t t1;
static int64_t n1;
static int64_t i1;
static int64_t d2;
static int64_t u1;
static int64_t d1;
static int64_t b1;
static int64_t e1;
static int64_t o1;
static void f1(void) {
}
static void f2(void) {
}
static void f3(void) {
  t1 = sci_more(INT64_C(1));
  if (t1) {
    v1[INT64_C(0)] = sci_input(INT64_C(1));
  } else {
    sci_stop(INT64_C(2), INT64_C(3), INT64_C(0));
  }
}
static void f4(void) {
  t1 = sci_more(INT64_C(2));
  if (t1) {
    v1[INT64_C(1)] = sci_input(INT64_C(2));
  } else {
    sci_stop(INT64_C(2), INT64_C(4), INT64_C(0));
  }
}
static void f5(void) {
}
static void f6(void) {
  t1 = sci_more(INT64_C(3));
  if (t1) {
    v1[INT64_C(2)] = sci_input(INT64_C(3));
  } else {
    sci_stop(INT64_C(2), INT64_C(6), INT64_C(0));
  }
}
static void f7(void) {
  t1 = sci_more(INT64_C(4));
  if (t1) {
    v1[INT64_C(3)] = sci_input(INT64_C(4));
  } else {
    sci_stop(INT64_C(2), INT64_C(7), INT64_C(0));
  }
}
static void f8(void) {
  v1[INT64_C(4)] = v1[INT64_C(1)];
}
static void f9(void) {
  t1 = INT64_C(0);
  t1 = (t1 + v1[INT64_C(4)]);
  t1 = (t1 - v1[INT64_C(22)]);
  if ((int64_t)((int64_t)(t1 < (-INT64_C(2147483648))) || (int64_t)(t1 > INT64_C(2147483647)))) {
    sci_stop(INT64_C(0), INT64_C(9), INT64_C(0));
  } else {
    v1[INT64_C(5)] = t1;
  }
}
static void f10(void) {
  t1 = (INT64_C(819) * v1[INT64_C(5)]);
  if ((int64_t)((int64_t)(t1 < (-INT64_C(2147483648))) || (int64_t)(t1 > INT64_C(2147483647)))) {
    sci_stop(INT64_C(0), INT64_C(10), INT64_C(0));
  } else {
    v1[INT64_C(6)] = t1;
  }
}
static void f11(void) {
  v1[INT64_C(7)] = ((v1[INT64_C(6)] - (((v1[INT64_C(6)] % INT64_C(4096)) + INT64_C(4096)) % INT64_C(4096))) / INT64_C(4096));
}
static void f12(void) {
  t1 = (INT64_C(131) * v1[INT64_C(5)]);
  if ((int64_t)((int64_t)(t1 < (-INT64_C(2147483648))) || (int64_t)(t1 > INT64_C(2147483647)))) {
    sci_stop(INT64_C(0), INT64_C(12), INT64_C(0));
  } else {
    v1[INT64_C(8)] = t1;
  }
}
static void f13(void) {
  v1[INT64_C(9)] = v2[INT64_C(0)];
}
static void f14(void) {
  v1[INT64_C(10)] = ((v1[INT64_C(9)] - (((v1[INT64_C(9)] % INT64_C(65536)) + INT64_C(65536)) % INT64_C(65536))) / INT64_C(65536));
}
static void f15(void) {
  t1 = INT64_C(0);
  t1 = (t1 + v1[INT64_C(7)]);
  t1 = (t1 + v1[INT64_C(10)]);
  if ((int64_t)((int64_t)(t1 < (-INT64_C(2147483648))) || (int64_t)(t1 > INT64_C(2147483647)))) {
    sci_stop(INT64_C(0), INT64_C(15), INT64_C(0));
  } else {
    v1[INT64_C(11)] = t1;
  }
}
static void f16(void) {
  t1 = v1[INT64_C(11)];
  if ((int64_t)(t1 > INT64_C(1000))) {
    t1 = INT64_C(1000);
  }
  if ((int64_t)(v1[INT64_C(11)] < INT64_C(0))) {
    t1 = INT64_C(0);
  }
  v1[INT64_C(12)] = t1;
}
static void f17(void) {
  t1 = INT64_C(0);
  t1 = (t1 + v1[INT64_C(11)]);
  t1 = (t1 - v1[INT64_C(12)]);
  if ((int64_t)((int64_t)(t1 < (-INT64_C(2147483648))) || (int64_t)(t1 > INT64_C(2147483647)))) {
    sci_stop(INT64_C(0), INT64_C(17), INT64_C(0));
  } else {
    v1[INT64_C(13)] = t1;
  }
}
static void f18(void) {
  v1[INT64_C(14)] = ((int64_t)(v1[INT64_C(13)] > INT64_C(0)) - (int64_t)(v1[INT64_C(13)] < INT64_C(0)));
}
static void f19(void) {
  v1[INT64_C(15)] = ((int64_t)(v1[INT64_C(5)] > INT64_C(0)) - (int64_t)(v1[INT64_C(5)] < INT64_C(0)));
}
static void f20(void) {
  t1 = (v1[INT64_C(14)] * v1[INT64_C(15)]);
  if ((int64_t)((int64_t)(t1 < (-INT64_C(2147483648))) || (int64_t)(t1 > INT64_C(2147483647)))) {
    sci_stop(INT64_C(0), INT64_C(20), INT64_C(0));
  } else {
    v1[INT64_C(16)] = t1;
  }
}
static void f21(void) {
  v1[INT64_C(17)] = INT64_C(0);
}
static void f22(void) {
  if ((int64_t)(v1[INT64_C(16)] > INT64_C(0))) {
    v1[INT64_C(18)] = v1[INT64_C(17)];
  } else {
    v1[INT64_C(18)] = v1[INT64_C(8)];
  }
}
static void f23(void) {
  t1 = INT64_C(0);
  t1 = (t1 + v1[INT64_C(9)]);
  t1 = (t1 + v1[INT64_C(18)]);
  if ((int64_t)((int64_t)(t1 < (-INT64_C(2147483648))) || (int64_t)(t1 > INT64_C(2147483647)))) {
    sci_stop(INT64_C(0), INT64_C(23), INT64_C(0));
  } else {
    v1[INT64_C(19)] = t1;
  }
}
static void f24(void) {
  t1 = (INT64_C(30) * v1[INT64_C(12)]);
  if ((int64_t)((int64_t)(t1 < (-INT64_C(2147483648))) || (int64_t)(t1 > INT64_C(2147483647)))) {
    sci_stop(INT64_C(0), INT64_C(24), INT64_C(0));
  } else {
    v1[INT64_C(20)] = t1;
  }
}
static void f25(void) {
  v1[INT64_C(21)] = v2[INT64_C(1)];
}
static void f26(void) {
  v1[INT64_C(22)] = ((v1[INT64_C(21)] - (((v1[INT64_C(21)] % INT64_C(16384)) + INT64_C(16384)) % INT64_C(16384))) / INT64_C(16384));
}
static void f27(void) {
  t1 = INT64_C(0);
  t1 = (t1 + v1[INT64_C(20)]);
  t1 = (t1 - v1[INT64_C(3)]);
  t1 = (t1 - v1[INT64_C(22)]);
  if ((int64_t)((int64_t)(t1 < (-INT64_C(2147483648))) || (int64_t)(t1 > INT64_C(2147483647)))) {
    sci_stop(INT64_C(0), INT64_C(27), INT64_C(0));
  } else {
    v1[INT64_C(23)] = t1;
  }
}
static void f28(void) {
  t1 = (INT64_C(164) * v1[INT64_C(23)]);
  if ((int64_t)((int64_t)(t1 < (-INT64_C(2147483648))) || (int64_t)(t1 > INT64_C(2147483647)))) {
    sci_stop(INT64_C(0), INT64_C(28), INT64_C(0));
  } else {
    v1[INT64_C(24)] = t1;
  }
}
static void f29(void) {
  t1 = INT64_C(0);
  t1 = (t1 + v1[INT64_C(21)]);
  t1 = (t1 + v1[INT64_C(24)]);
  if ((int64_t)((int64_t)(t1 < (-INT64_C(2147483648))) || (int64_t)(t1 > INT64_C(2147483647)))) {
    sci_stop(INT64_C(0), INT64_C(29), INT64_C(0));
  } else {
    v1[INT64_C(25)] = t1;
  }
}
static void g3(void) {
  b1 = INT64_C(0);
  d2 = v6[INT64_C(0)];
  if ((int64_t)((int64_t)((int64_t)(d2 < INT64_C(0)) || (int64_t)(v6[INT64_C(1)] <= d2)) && (int64_t)((int64_t)(v6[INT64_C(1)] >= INT64_C(0)) && (int64_t)((int64_t)(v6[INT64_C(1)] != d2) || (int64_t)(v7[INT64_C(1)] < v7[b1]))))) {
    b1 = INT64_C(1);
    d2 = v6[INT64_C(1)];
  }
  if ((int64_t)((int64_t)((int64_t)(d2 < INT64_C(0)) || (int64_t)(v6[INT64_C(2)] <= d2)) && (int64_t)((int64_t)(v6[INT64_C(2)] >= INT64_C(0)) && (int64_t)((int64_t)(v6[INT64_C(2)] != d2) || (int64_t)(v7[INT64_C(2)] < v7[b1]))))) {
    b1 = INT64_C(2);
    d2 = v6[INT64_C(2)];
  }
}
static void s0(void) {
  sci_start();
  f21();
  sci_val(INT64_C(21), INT64_C(1), INT64_C(1), v1[INT64_C(17)]);
}
static void s1(void) {
  sci_event(d1, INT64_C(1), INT64_C(1));
  f1();
  f8();
  f13();
  f25();
  f14();
  f26();
  f9();
  f10();
  f12();
  f19();
  f11();
  f15();
  f16();
  f17();
  f24();
  f18();
  f27();
  f20();
  f28();
  f22();
  f29();
  f23();
  sci_val(INT64_C(8), INT64_C(1), INT64_C(1), v1[INT64_C(4)]);
  sci_val(INT64_C(9), INT64_C(1), INT64_C(1), v1[INT64_C(5)]);
  sci_val(INT64_C(10), INT64_C(1), INT64_C(1), v1[INT64_C(6)]);
  sci_val(INT64_C(11), INT64_C(1), INT64_C(1), v1[INT64_C(7)]);
  sci_val(INT64_C(12), INT64_C(1), INT64_C(1), v1[INT64_C(8)]);
  sci_val(INT64_C(13), INT64_C(1), INT64_C(1), v1[INT64_C(9)]);
  sci_val(INT64_C(14), INT64_C(1), INT64_C(1), v1[INT64_C(10)]);
  sci_val(INT64_C(15), INT64_C(1), INT64_C(1), v1[INT64_C(11)]);
  sci_val(INT64_C(16), INT64_C(1), INT64_C(1), v1[INT64_C(12)]);
  sci_val(INT64_C(17), INT64_C(1), INT64_C(1), v1[INT64_C(13)]);
  sci_val(INT64_C(18), INT64_C(1), INT64_C(1), v1[INT64_C(14)]);
  sci_val(INT64_C(19), INT64_C(1), INT64_C(1), v1[INT64_C(15)]);
  sci_val(INT64_C(20), INT64_C(1), INT64_C(1), v1[INT64_C(16)]);
  sci_val(INT64_C(22), INT64_C(1), INT64_C(1), v1[INT64_C(18)]);
  sci_val(INT64_C(23), INT64_C(1), INT64_C(1), v1[INT64_C(19)]);
  sci_val(INT64_C(24), INT64_C(1), INT64_C(1), v1[INT64_C(20)]);
  sci_val(INT64_C(25), INT64_C(1), INT64_C(1), v1[INT64_C(21)]);
  sci_val(INT64_C(26), INT64_C(1), INT64_C(1), v1[INT64_C(22)]);
  sci_val(INT64_C(27), INT64_C(1), INT64_C(1), v1[INT64_C(23)]);
  sci_val(INT64_C(28), INT64_C(1), INT64_C(1), v1[INT64_C(24)]);
  sci_val(INT64_C(29), INT64_C(1), INT64_C(1), v1[INT64_C(25)]);
  v6[INT64_C(0)] = (d1 + INT64_C(1));
  v7[INT64_C(0)] = o1;
  o1 = (o1 + INT64_C(1));
  v2[INT64_C(0)] = v1[INT64_C(19)];
  v2[INT64_C(1)] = v1[INT64_C(25)];
}
static void s2(void) {
  sci_event(d1, INT64_C(2), INT64_C(1));
  f2();
  f3();
  f4();
  sci_val(INT64_C(3), INT64_C(1), INT64_C(1), v1[INT64_C(0)]);
  sci_val(INT64_C(4), INT64_C(1), INT64_C(1), v1[INT64_C(1)]);
  e1 = (((int64_t)(v1[INT64_C(0)] >= INT64_C(0)) * (((int64_t)(v1[INT64_C(0)] <= INT64_C(2147483647)) * v1[INT64_C(0)]) + ((int64_t)(v1[INT64_C(0)] > INT64_C(2147483647)) * INT64_C(2147483647)))) - (int64_t)(v1[INT64_C(0)] < INT64_C(0)));
  if ((int64_t)(e1 >= INT64_C(0))) {
    v6[INT64_C(1)] = (d1 + e1);
    v7[INT64_C(1)] = o1;
    o1 = (o1 + INT64_C(1));
  }
}
static void s3(void) {
  sci_event(d1, INT64_C(5), INT64_C(1));
  f5();
  f6();
  f7();
  f27();
  f28();
  f29();
  sci_val(INT64_C(6), INT64_C(1), INT64_C(1), v1[INT64_C(2)]);
  sci_val(INT64_C(7), INT64_C(1), INT64_C(1), v1[INT64_C(3)]);
  sci_val(INT64_C(27), INT64_C(1), INT64_C(1), v1[INT64_C(23)]);
  sci_val(INT64_C(28), INT64_C(1), INT64_C(1), v1[INT64_C(24)]);
  sci_val(INT64_C(29), INT64_C(1), INT64_C(1), v1[INT64_C(25)]);
  e1 = (((int64_t)(v1[INT64_C(2)] >= INT64_C(0)) * (((int64_t)(v1[INT64_C(2)] <= INT64_C(2147483647)) * v1[INT64_C(2)]) + ((int64_t)(v1[INT64_C(2)] > INT64_C(2147483647)) * INT64_C(2147483647)))) - (int64_t)(v1[INT64_C(2)] < INT64_C(0)));
  if ((int64_t)(e1 >= INT64_C(0))) {
    v6[INT64_C(2)] = (d1 + e1);
    v7[INT64_C(2)] = o1;
    o1 = (o1 + INT64_C(1));
  }
}
static void g4(void) {
  if ((int64_t)(d2 < INT64_C(0))) {
    sci_end(INT64_C(2));
  } else {
    if ((int64_t)(d2 > u1)) {
      sci_end(INT64_C(3));
    } else {
      d1 = v6[b1];
      v6[b1] = (-INT64_C(1));
      if ((int64_t)(b1 < INT64_C(2))) {
        if ((int64_t)(b1 < INT64_C(1))) {
          s1();
        } else {
          s2();
        }
      } else {
        s3();
      }
      g3();
    }
  }
}
void sci_main(void) {
  v7[INT64_C(1)] = INT64_C(1);
  v7[INT64_C(2)] = INT64_C(2);
  o1 = INT64_C(3);
  u1 = sci_until();
  n1 = sci_limit();
  s0();
  g3();
  for (i1 = INT64_C(0); i1 < n1; i1 = i1 + INT64_C(1)) {
    g4();
  }
  sci_end(INT64_C(1));
}

#include <stdint.h>
extern void sci_start(void);
extern void sci_event(int64_t a, int64_t b, int64_t c);
extern void sci_val(int64_t a, int64_t b, int64_t c, int64_t d);
extern void sci_end(int64_t a);
extern void sci_stop(int64_t a, int64_t b, int64_t c);
extern int64_t sci_more(int64_t a);
extern int64_t sci_input(int64_t a);
extern int64_t sci_until(void);
extern int64_t sci_limit(void);
static int64_t v1[33];
static int64_t v2[2];
static int64_t v3[37];
static int64_t v4[37];
static int64_t v5[37];
static int64_t v6[2];
static int64_t v7[2];
static int64_t t1;
static int64_t n1;
static int64_t i1;
static int64_t d2;
static int64_t u1;
static int64_t d1;
static int64_t b1;
static int64_t o1;
static void f1(void) {
}
static void f2(void) {
  t1 = sci_more(INT64_C(1));
  if (t1) {
    v1[INT64_C(0)] = sci_input(INT64_C(1));
  } else {
    sci_stop(INT64_C(2), INT64_C(2), INT64_C(0));
  }
}
static void f3(void) {
  t1 = sci_more(INT64_C(2));
  if (t1) {
    v1[INT64_C(1)] = sci_input(INT64_C(2));
  } else {
    sci_stop(INT64_C(2), INT64_C(3), INT64_C(0));
  }
}
static void f4(void) {
  t1 = INT64_C(0);
  t1 = (t1 + (int64_t)(v1[INT64_C(0)] != INT64_C(0)));
  t1 = (t1 + (int64_t)(v1[INT64_C(1)] != INT64_C(0)));
  v1[INT64_C(2)] = (int64_t)(t1 > INT64_C(0));
}
static void f5(void) {
  v1[INT64_C(3)] = v2[INT64_C(0)];
}
static void f6(void) {
  v1[INT64_C(4)] = INT64_C(1);
}
static void f7(void) {
  t1 = INT64_C(0);
  t1 = (t1 + v1[INT64_C(3)]);
  t1 = (t1 + v1[INT64_C(4)]);
  t1 = (INT64_C(0) + ((((t1 - INT64_C(0)) % INT64_C(256)) + INT64_C(256)) % INT64_C(256)));
  v1[INT64_C(5)] = t1;
}
static void f8(void) {
}
static void f9(void) {
  v1[INT64_C(6)] = INT64_C(1);
}
static void f10(void) {
  v1[INT64_C(7)] = INT64_C(0);
}
static void f11(void) {
  if ((int64_t)(v1[INT64_C(0)] > INT64_C(0))) {
    v1[INT64_C(8)] = v1[INT64_C(6)];
  } else {
    v1[INT64_C(8)] = v1[INT64_C(7)];
  }
}
static void f12(void) {
  v1[INT64_C(9)] = INT64_C(2);
}
static void f13(void) {
  v1[INT64_C(10)] = INT64_C(1);
}
static void f14(void) {
  if ((int64_t)(v1[INT64_C(30)] >= INT64_C(100))) {
    v1[INT64_C(11)] = v1[INT64_C(9)];
  } else {
    v1[INT64_C(11)] = v1[INT64_C(10)];
  }
}
static void f15(void) {
  v1[INT64_C(12)] = INT64_C(3);
}
static void f16(void) {
  v1[INT64_C(13)] = INT64_C(0);
}
static void f17(void) {
  if ((int64_t)(v1[INT64_C(30)] > INT64_C(0))) {
    v1[INT64_C(14)] = v1[INT64_C(12)];
  } else {
    v1[INT64_C(14)] = v1[INT64_C(13)];
  }
}
static void f18(void) {
  v1[INT64_C(15)] = INT64_C(1);
}
static void f19(void) {
  if ((int64_t)(v1[INT64_C(2)] > INT64_C(0))) {
    v1[INT64_C(16)] = v1[INT64_C(15)];
  } else {
    v1[INT64_C(16)] = v1[INT64_C(14)];
  }
}
static void f20(void) {
  v1[INT64_C(17)] = INT64_C(3);
}
static void f21(void) {
  if (((v3[INT64_C(20)] / INT64_C(1)) % INT64_C(2))) {
    v1[INT64_C(18)] = v1[INT64_C(8)];
  } else {
    if (((v3[INT64_C(20)] / INT64_C(2)) % INT64_C(2))) {
      v1[INT64_C(18)] = v1[INT64_C(11)];
    } else {
      if (((v3[INT64_C(20)] / INT64_C(4)) % INT64_C(2))) {
        v1[INT64_C(18)] = v1[INT64_C(3)];
      } else {
        if (((v3[INT64_C(20)] / INT64_C(8)) % INT64_C(2))) {
          v1[INT64_C(18)] = v1[INT64_C(16)];
        } else {
          v1[INT64_C(18)] = v1[INT64_C(17)];
        }
      }
    }
  }
}
static void f22(void) {
  v1[INT64_C(19)] = INT64_C(2);
}
static void f23(void) {
  v1[INT64_C(20)] = (int64_t)(v1[INT64_C(3)] != v1[INT64_C(19)]);
}
static void f24(void) {
  v1[INT64_C(21)] = INT64_C(2);
}
static void f25(void) {
  v1[INT64_C(22)] = (int64_t)(v1[INT64_C(18)] == v1[INT64_C(21)]);
}
static void f26(void) {
  t1 = INT64_C(0);
  t1 = (t1 + (int64_t)(v1[INT64_C(20)] != INT64_C(0)));
  t1 = (t1 + (int64_t)(v1[INT64_C(2)] != INT64_C(0)));
  v1[INT64_C(23)] = (int64_t)(t1 > INT64_C(0));
}
static void f27(void) {
  t1 = INT64_C(0);
  t1 = (t1 + (int64_t)(v1[INT64_C(22)] != INT64_C(0)));
  t1 = (t1 + (int64_t)(v1[INT64_C(23)] != INT64_C(0)));
  v1[INT64_C(24)] = (int64_t)(t1 == INT64_C(2));
}
static void f28(void) {
}
static void f29(void) {
}
static void f30(void) {
  v1[INT64_C(25)] = (-INT64_C(20));
}
static void f31(void) {
  v1[INT64_C(26)] = INT64_C(0);
}
static void f32(void) {
  if ((int64_t)(v1[INT64_C(18)] != INT64_C(3))) {
    v1[INT64_C(27)] = v1[INT64_C(26)];
  } else {
    v1[INT64_C(27)] = v1[INT64_C(25)];
  }
}
static void f33(void) {
  v1[INT64_C(28)] = INT64_C(20);
}
static void f34(void) {
  if ((int64_t)(v1[INT64_C(18)] != INT64_C(1))) {
    v1[INT64_C(29)] = v1[INT64_C(27)];
  } else {
    v1[INT64_C(29)] = v1[INT64_C(28)];
  }
}
static void f35(void) {
  v1[INT64_C(30)] = v2[INT64_C(1)];
}
static void f36(void) {
  t1 = INT64_C(0);
  t1 = (t1 + v1[INT64_C(30)]);
  t1 = (t1 + v1[INT64_C(29)]);
  t1 = ((-INT64_C(32768)) + ((((t1 - (-INT64_C(32768))) % INT64_C(65536)) + INT64_C(65536)) % INT64_C(65536)));
  v1[INT64_C(31)] = t1;
}
static void f37(void) {
  t1 = v1[INT64_C(31)];
  if ((int64_t)(t1 > INT64_C(100))) {
    t1 = INT64_C(100);
  }
  if ((int64_t)(v1[INT64_C(31)] < INT64_C(0))) {
    t1 = INT64_C(0);
  }
  v1[INT64_C(32)] = t1;
}
static void g3(void) {
  b1 = INT64_C(0);
  d2 = v6[INT64_C(0)];
  if ((int64_t)((int64_t)((int64_t)(d2 < INT64_C(0)) || (int64_t)(v6[INT64_C(1)] <= d2)) && (int64_t)((int64_t)(v6[INT64_C(1)] >= INT64_C(0)) && (int64_t)((int64_t)(v6[INT64_C(1)] != d2) || (int64_t)(v7[INT64_C(1)] < v7[b1]))))) {
    b1 = INT64_C(1);
    d2 = v6[INT64_C(1)];
  }
}
static void s0(void) {
  sci_start();
  f6();
  f9();
  f10();
  f12();
  f13();
  f15();
  f16();
  f18();
  f20();
  f22();
  f24();
  f30();
  f31();
  f33();
  f32();
  f34();
  f36();
  f37();
  sci_val(INT64_C(6), INT64_C(1), INT64_C(1), v1[INT64_C(4)]);
  sci_val(INT64_C(9), INT64_C(1), INT64_C(1), v1[INT64_C(6)]);
  sci_val(INT64_C(10), INT64_C(1), INT64_C(1), v1[INT64_C(7)]);
  sci_val(INT64_C(12), INT64_C(1), INT64_C(1), v1[INT64_C(9)]);
  sci_val(INT64_C(13), INT64_C(1), INT64_C(1), v1[INT64_C(10)]);
  sci_val(INT64_C(15), INT64_C(1), INT64_C(1), v1[INT64_C(12)]);
  sci_val(INT64_C(16), INT64_C(1), INT64_C(1), v1[INT64_C(13)]);
  sci_val(INT64_C(18), INT64_C(1), INT64_C(1), v1[INT64_C(15)]);
  sci_val(INT64_C(20), INT64_C(1), INT64_C(1), v1[INT64_C(17)]);
  sci_val(INT64_C(22), INT64_C(1), INT64_C(1), v1[INT64_C(19)]);
  sci_val(INT64_C(24), INT64_C(1), INT64_C(1), v1[INT64_C(21)]);
  sci_val(INT64_C(30), INT64_C(1), INT64_C(1), v1[INT64_C(25)]);
  sci_val(INT64_C(31), INT64_C(1), INT64_C(1), v1[INT64_C(26)]);
  sci_val(INT64_C(32), INT64_C(1), INT64_C(1), v1[INT64_C(27)]);
  sci_val(INT64_C(33), INT64_C(1), INT64_C(1), v1[INT64_C(28)]);
  sci_val(INT64_C(34), INT64_C(1), INT64_C(1), v1[INT64_C(29)]);
  sci_val(INT64_C(36), INT64_C(1), INT64_C(1), v1[INT64_C(31)]);
  sci_val(INT64_C(37), INT64_C(1), INT64_C(1), v1[INT64_C(32)]);
}
static void s1(void) {
  sci_event(d1, INT64_C(1), INT64_C(1));
  v5[INT64_C(7)] = INT64_C(0);
  v4[INT64_C(20)] = INT64_C(0);
  v4[INT64_C(31)] = INT64_C(0);
  v4[INT64_C(33)] = INT64_C(0);
  v5[INT64_C(27)] = INT64_C(0);
  f1();
  f2();
  f3();
  f5();
  f35();
  f4();
  f7();
  f23();
  f8();
  v5[INT64_C(7)] = (((int64_t)(v1[INT64_C(5)] >= INT64_C(1)) * (((int64_t)(v1[INT64_C(5)] <= INT64_C(4)) * v1[INT64_C(5)]) + ((int64_t)(v1[INT64_C(5)] > INT64_C(4)) * INT64_C(4)))) + (int64_t)(v1[INT64_C(5)] < INT64_C(1)));
  f26();
  if ((int64_t)(v5[INT64_C(7)] == INT64_C(1))) {
    f11();
  }
  if ((int64_t)(v5[INT64_C(7)] == INT64_C(2))) {
    f14();
  }
  if ((int64_t)(v5[INT64_C(7)] == INT64_C(4))) {
    f17();
  }
  if ((int64_t)(v5[INT64_C(7)] == INT64_C(4))) {
    f19();
  }
  v3[INT64_C(20)] = INT64_C(0);
  if ((int64_t)(v5[INT64_C(7)] == INT64_C(1))) {
    v4[INT64_C(20)] = INT64_C(1);
    v3[INT64_C(20)] = (v3[INT64_C(20)] + ((INT64_C(1) - ((v3[INT64_C(20)] / INT64_C(1)) % INT64_C(2))) * INT64_C(1)));
  }
  if ((int64_t)(v5[INT64_C(7)] == INT64_C(2))) {
    v4[INT64_C(20)] = INT64_C(1);
    v3[INT64_C(20)] = (v3[INT64_C(20)] + ((INT64_C(1) - ((v3[INT64_C(20)] / INT64_C(2)) % INT64_C(2))) * INT64_C(2)));
  }
  if ((int64_t)(v5[INT64_C(7)] == INT64_C(3))) {
    v4[INT64_C(20)] = INT64_C(1);
    v3[INT64_C(20)] = (v3[INT64_C(20)] + ((INT64_C(1) - ((v3[INT64_C(20)] / INT64_C(4)) % INT64_C(2))) * INT64_C(4)));
  }
  if ((int64_t)(v5[INT64_C(7)] == INT64_C(4))) {
    v4[INT64_C(20)] = INT64_C(1);
    v3[INT64_C(20)] = (v3[INT64_C(20)] + ((INT64_C(1) - ((v3[INT64_C(20)] / INT64_C(8)) % INT64_C(2))) * INT64_C(8)));
  }
  if (v4[INT64_C(20)]) {
    f21();
  }
  f25();
  if ((int64_t)(v5[INT64_C(7)] == INT64_C(1))) {
    v4[INT64_C(31)] = INT64_C(1);
  }
  if ((int64_t)(v5[INT64_C(7)] == INT64_C(2))) {
    v4[INT64_C(31)] = INT64_C(1);
  }
  if ((int64_t)(v5[INT64_C(7)] == INT64_C(3))) {
    v4[INT64_C(31)] = INT64_C(1);
  }
  if ((int64_t)(v5[INT64_C(7)] == INT64_C(4))) {
    v4[INT64_C(31)] = INT64_C(1);
  }
  if (v4[INT64_C(31)]) {
    f32();
  }
  f27();
  if ((int64_t)(v5[INT64_C(7)] == INT64_C(1))) {
    v4[INT64_C(33)] = INT64_C(1);
  }
  if ((int64_t)(v5[INT64_C(7)] == INT64_C(2))) {
    v4[INT64_C(33)] = INT64_C(1);
  }
  if ((int64_t)(v5[INT64_C(7)] == INT64_C(3))) {
    v4[INT64_C(33)] = INT64_C(1);
  }
  if ((int64_t)(v5[INT64_C(7)] == INT64_C(4))) {
    v4[INT64_C(33)] = INT64_C(1);
  }
  if (v4[INT64_C(33)]) {
    f34();
  }
  f28();
  v5[INT64_C(27)] = (INT64_C(2) - (int64_t)(v1[INT64_C(24)] > INT64_C(0)));
  f36();
  if ((int64_t)(v5[INT64_C(27)] == INT64_C(1))) {
    f29();
  }
  f37();
  sci_val(INT64_C(2), INT64_C(1), INT64_C(1), v1[INT64_C(0)]);
  sci_val(INT64_C(3), INT64_C(1), INT64_C(1), v1[INT64_C(1)]);
  sci_val(INT64_C(4), INT64_C(1), INT64_C(1), v1[INT64_C(2)]);
  sci_val(INT64_C(5), INT64_C(1), INT64_C(1), v1[INT64_C(3)]);
  sci_val(INT64_C(7), INT64_C(1), INT64_C(1), v1[INT64_C(5)]);
  if ((int64_t)(v5[INT64_C(7)] == INT64_C(1))) {
    sci_val(INT64_C(11), INT64_C(1), INT64_C(1), v1[INT64_C(8)]);
  }
  if ((int64_t)(v5[INT64_C(7)] == INT64_C(2))) {
    sci_val(INT64_C(14), INT64_C(1), INT64_C(1), v1[INT64_C(11)]);
  }
  if ((int64_t)(v5[INT64_C(7)] == INT64_C(4))) {
    sci_val(INT64_C(17), INT64_C(1), INT64_C(1), v1[INT64_C(14)]);
  }
  if ((int64_t)(v5[INT64_C(7)] == INT64_C(4))) {
    sci_val(INT64_C(19), INT64_C(1), INT64_C(1), v1[INT64_C(16)]);
  }
  if (v4[INT64_C(20)]) {
    sci_val(INT64_C(21), INT64_C(1), INT64_C(1), v1[INT64_C(18)]);
  }
  sci_val(INT64_C(23), INT64_C(1), INT64_C(1), v1[INT64_C(20)]);
  sci_val(INT64_C(25), INT64_C(1), INT64_C(1), v1[INT64_C(22)]);
  sci_val(INT64_C(26), INT64_C(1), INT64_C(1), v1[INT64_C(23)]);
  sci_val(INT64_C(27), INT64_C(1), INT64_C(1), v1[INT64_C(24)]);
  if (v4[INT64_C(31)]) {
    sci_val(INT64_C(32), INT64_C(1), INT64_C(1), v1[INT64_C(27)]);
  }
  if (v4[INT64_C(33)]) {
    sci_val(INT64_C(34), INT64_C(1), INT64_C(1), v1[INT64_C(29)]);
  }
  sci_val(INT64_C(35), INT64_C(1), INT64_C(1), v1[INT64_C(30)]);
  sci_val(INT64_C(36), INT64_C(1), INT64_C(1), v1[INT64_C(31)]);
  sci_val(INT64_C(37), INT64_C(1), INT64_C(1), v1[INT64_C(32)]);
  v6[INT64_C(0)] = (d1 + INT64_C(200));
  v7[INT64_C(0)] = o1;
  o1 = (o1 + INT64_C(1));
  if ((int64_t)(v5[INT64_C(27)] == INT64_C(1))) {
    v6[INT64_C(1)] = (d1 + INT64_C(3000));
    v7[INT64_C(1)] = o1;
    o1 = (o1 + INT64_C(1));
  }
  v2[INT64_C(0)] = v1[INT64_C(18)];
  v2[INT64_C(1)] = v1[INT64_C(32)];
}
static void s2(void) {
  sci_event(d1, INT64_C(29), INT64_C(1));
  f5();
  v3[INT64_C(20)] = INT64_C(16);
  f21();
  f32();
  f34();
  f36();
  f37();
  sci_val(INT64_C(5), INT64_C(1), INT64_C(1), v1[INT64_C(3)]);
  sci_val(INT64_C(21), INT64_C(1), INT64_C(1), v1[INT64_C(18)]);
  sci_val(INT64_C(32), INT64_C(1), INT64_C(1), v1[INT64_C(27)]);
  sci_val(INT64_C(34), INT64_C(1), INT64_C(1), v1[INT64_C(29)]);
  sci_val(INT64_C(36), INT64_C(1), INT64_C(1), v1[INT64_C(31)]);
  sci_val(INT64_C(37), INT64_C(1), INT64_C(1), v1[INT64_C(32)]);
  v2[INT64_C(0)] = v1[INT64_C(18)];
}
static void g4(void) {
  if ((int64_t)(d2 < INT64_C(0))) {
    sci_end(INT64_C(2));
  } else {
    if ((int64_t)(d2 > u1)) {
      sci_end(INT64_C(3));
    } else {
      d1 = v6[b1];
      v6[b1] = (-INT64_C(1));
      if ((int64_t)(b1 < INT64_C(1))) {
        s1();
      } else {
        s2();
      }
      g3();
    }
  }
}
void sci_main(void) {
  v6[INT64_C(1)] = (-INT64_C(1));
  o1 = INT64_C(1);
  u1 = sci_until();
  n1 = sci_limit();
  s0();
  g3();
  for (i1 = INT64_C(0); i1 < n1; i1 = i1 + INT64_C(1)) {
    g4();
  }
  sci_end(INT64_C(1));
}

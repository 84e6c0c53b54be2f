class T {
  static void a() { }
  static void b() { }
  static void c() { }
  static void d() { }
  static void e() { }
  static void m1(boolean p, boolean q, int k) { switch (k) { case 1: a(); break; case 2: b(); break; default: c(); } }
  static void m2(boolean p, boolean q, int k) { switch (k) { case 1: a(); break; case 2: b(); break; } }
  static void m3(boolean p, boolean q, int k) { switch (k) { case 1: a(); case 2: b(); break; default: c(); } }
  static void m4(boolean p, boolean q, int k) { switch (k) { case 1: a(); case 2: b(); default: c(); } }
  static void m5(boolean p, boolean q, int k) { switch (k) { case 1: a(); case 2: b(); } }
  static void m6(boolean p, boolean q, int k) { switch (k) { case 1: a(); break; default: } }
  static void m7(boolean p, boolean q, int k) { switch (k) { } }
  static void m8(boolean p, boolean q, int k) { switch (k) { default: a(); } }
  static void m9(boolean p, boolean q, int k) { switch (k) { case 1: a(); break; default: b(); case 2: c(); } }
  static void m10(boolean p, boolean q, int k) { switch (k) { case 1: case 2: a(); break; case 3: default: b(); } }
  static void m11(boolean p, boolean q, int k) {
    switch (k) { case 1: a(); return; case 2: b(); break; default: c(); }
  }
  static void m12(boolean p, boolean q, int k) { switch (k) { case 1: if (p) break; a(); default: b(); } }
  static void m13(boolean p, boolean q, int k) {
    while (p) { switch (k) { case 1: a(); break; case 2: continue; default: b(); } c(); }
  }
  static void m14(boolean p, boolean q, int k) {
    switch (k) { case 1: switch (p) { case 1: a(); break; default: b(); } c(); break; default: d(); }
  }
  static void m15(boolean p, boolean q, int k) { switch (k) { case 1: int x = 1; a(); break; case 2: x = 2; b(); } }
  static void m16(boolean p, boolean q, int k) { x: while (p) { switch (k) { case 1: break x; default: a(); } b(); } }
  static void m17(boolean p, boolean q, int k) {
    switch (k) { case 1: a(); break; case 2: b(); break; case 3: c(); break; case 4: d(); break; default: e(); }
  }
  static void m18(boolean p, boolean q, int k) { switch (k) { case 1: throw null; case 2: a(); break; default: } }
  static void m19(boolean p, boolean q, int k) { x: switch (k) { case 1: if (p) break x; a(); break; default: b(); } }
  static void m20(boolean p, boolean q, int k) {
    do { switch (k) { case 1: continue; default: a(); } b(); } while (p);
  }
  static void m21(boolean p, boolean q, int k) { switch (k) { case 1: a(); case 2: break; default: b(); } }
  static void m22(boolean p, boolean q, int k) { switch (k) { case 1: return; default: return; } }
  static void m23(boolean p, boolean q, int k) {
    while (true) { switch (k) { case 1: a(); break; default: } if (p) break; }
  }
  static void m24(boolean p, boolean q, int k) {
    switch (k) { case 1: { int x = 0; a(); } break; default: int x = 1; b(); }
  }
}

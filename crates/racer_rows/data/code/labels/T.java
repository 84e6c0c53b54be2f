class T {
  static void a() { }
  static void b() { }
  static void c() { }
  static void d() { }
  static void e() { }
  static void m1(boolean p, boolean q, int k) { x: { if (p) break x; a(); } }
  static void m2(boolean p, boolean q, int k) { x: while (p) { while (q) { if (p) continue x; a(); } b(); } }
  static void m3(boolean p, boolean q, int k) { x: while (p) { while (q) { if (p) break x; a(); } b(); } }
  static void m4(boolean p, boolean q, int k) { x: y: while (p) { if (q) continue y; if (p) break x; a(); } }
  static void m5(boolean p, boolean q, int k) { x: { y: { if (p) break x; if (q) break y; a(); } b(); } c(); }
  static void m6(boolean p, boolean q, int k) { x: a(); }
  static void m7(boolean p, boolean q, int k) { x: break x; }
  static void m8(boolean p, boolean q, int k) { x: { a(); break x; } b(); }
  static void m9(boolean p, boolean q, int k) { x: if (p) { a(); break x; } else { b(); } c(); }
  static void m10(boolean p, boolean q, int k) {
    x: while (p) { y: while (q) { if (p) continue x; if (q) break y; a(); } b(); }
  }
  static void m11(boolean p, boolean q, int k) { x: do { while (true) { if (p) break x; a(); } } while (q); }
  static void m12(boolean p, boolean q, int k) {
    x: for (int i = 0; p; a()) { for (int j = 0; q; b()) { if (p) continue x; c(); } }
  }
  static void m13(boolean p, boolean q, int k) {
    x: while (p) { y: { if (q) continue x; if (p) break y; a(); } b(); }
  }
  static void m14(boolean p, boolean q, int k) { x: { int i = 0; if (p) break x; a(); } b(); }
  static void m15(boolean p, boolean q, int k) { x: { x: while (p) { if (q) break x; a(); } b(); } }
  static void m16(boolean p, boolean q, int k) { x: while (p) { x: { if (q) continue x; a(); } b(); } }
}

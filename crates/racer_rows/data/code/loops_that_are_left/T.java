class T {
  static void a() { }
  static void b() { }
  static void c() { }
  static void d() { }
  static void e() { }
  static void m1(boolean p, boolean q, int k) { while (p) { if (q) break; a(); } }
  static void m2(boolean p, boolean q, int k) { while (p) { if (q) continue; a(); } }
  static void m3(boolean p, boolean q, int k) { while (true) { a(); if (p) break; b(); } }
  static void m4(boolean p, boolean q, int k) { while (true) { a(); if (p) return; b(); } }
  static void m5(boolean p, boolean q, int k) { do { a(); if (p) break; b(); } while (q); }
  static void m6(boolean p, boolean q, int k) { do { a(); if (p) continue; b(); } while (q); }
  static void m7(boolean p, boolean q, int k) { do a(); while (p); }
  static void m8(boolean p, boolean q, int k) { do { a(); continue; } while (p); }
  static void m9(boolean p, boolean q, int k) { do { a(); break; } while (p); }
  static void m10(boolean p, boolean q, int k) { for (;;) { a(); if (p) continue; if (q) break; b(); } }
  static void m11(boolean p, boolean q, int k) { for (int i = 0; p; a()) { if (q) break; b(); } }
  static void m12(boolean p, boolean q, int k) { for (int i = 0; p; a()) { if (q) continue; b(); } }
  static void m13(boolean p, boolean q, int k) { for (Object o : null) { if (p) break; a(); } }
  static void m14(boolean p, boolean q, int k) { for (Object o : null) { if (p) continue; a(); } }
  static void m15(boolean p, boolean q, int k) { while (true) { if (p) break; if (q) return; a(); } }
  static void m16(boolean p, boolean q, int k) { while (true) { a(); break; } }
  static void m17(boolean p, boolean q, int k) { while (p) { a(); break; } }
  static void m18(boolean p, boolean q, int k) { while (p) { a(); return; } }
  static void m19(boolean p, boolean q, int k) { while (p) continue; }
  static void m20(boolean p, boolean q, int k) { do { if (p) { a(); continue; } b(); } while (true); }
  static void m21(boolean p, boolean q, int k) { while (p) { while (q) { if (p) break; a(); } b(); } }
  static void m22(boolean p, boolean q, int k) {
    while (true) { while (true) { if (p) break; a(); } if (q) break; b(); }
  }
  static void m23(boolean p, boolean q, int k) { while ((true)) { if (p) break; a(); } }
  static void m24(boolean p, boolean q, int k) { for (int i = 0; true; ) { int j = 0; if (p) break; a(); } }
}

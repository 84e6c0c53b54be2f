class T {
  static void a() { }
  static void b() { }
  static void c() { }
  static void d() { }
  static void e() { }
  static void m1(boolean p, boolean q, int k) { try { a(); } finally { b(); } }
  static void m2(boolean p, boolean q, int k) { try { if (p) return; a(); } finally { b(); } c(); }
  static void m3(boolean p, boolean q, int k) { try { return; } finally { a(); } }
  static void m4(boolean p, boolean q, int k) { try { a(); } finally { return; } }
  static void m5(boolean p, boolean q, int k) { try { if (p) return; a(); } finally { if (q) return; b(); } c(); }
  static void m6(boolean p, boolean q, int k) { while (p) { try { if (q) break; a(); } finally { b(); } c(); } }
  static void m7(boolean p, boolean q, int k) { while (p) { try { if (q) continue; a(); } finally { b(); } c(); } }
  static void m8(boolean p, boolean q, int k) { while (p) { try { if (q) continue; a(); } finally { b(); } } }
  static void m9(boolean p, boolean q, int k) {
    x: { try { if (p) return; a(); } finally { if (q) break x; b(); } c(); } d();
  }
  static void m10(boolean p, boolean q, int k) {
    x: { try { if (p) return; a(); } finally { if (q) break x; b(); } } d();
  }
  static void m11(boolean p, boolean q, int k) {
    try { try { if (p) return; a(); } finally { b(); } c(); } finally { d(); } e();
  }
  static void m12(boolean p, boolean q, int k) { try (Object o = null) { if (p) return; a(); } finally { b(); } }
  static void m13(boolean p, boolean q, int k) { try { if (p) throw null; a(); } finally { b(); } }
  static void m14(boolean p, boolean q, int k) { try { throw null; } finally { a(); } }
  static void m15(boolean p, boolean q, int k) { try { throw null; } finally { return; } }
  static void m16(boolean p, boolean q, int k) { while (p) { try { a(); } finally { break; } } }
  static void m17(boolean p, boolean q, int k) { while (p) { try { if (q) return; a(); } finally { break; } } }
  static void m18(boolean p, boolean q, int k) { while (p) { try { if (q) break; a(); } finally { continue; } } }
  static void m19(boolean p, boolean q, int k) {
    while (p) { try { return; } finally { if (q) continue; a(); } b(); }
  }
  static void m20(boolean p, boolean q, int k) {
    try { switch (k) { case 1: return; case 2: a(); break; default: b(); } c(); } finally { d(); }
  }
  static void m21(boolean p, boolean q, int k) { try { while (p) { if (q) return; a(); } } finally { b(); } }
  static void m22(boolean p, boolean q, int k) { try { a(); } catch (Exception e) { b(); } finally { c(); } }
  static void m23(boolean p, boolean q, int k) { try { if (p) return; if (q) return; a(); } finally { b(); } }
  static void m24(boolean p, boolean q, int k) { try { a(); } finally { try { b(); } finally { c(); } } }
  static void m25(boolean p, boolean q, int k) {
    try { try { a(); } finally { if (p) return; b(); } c(); } finally { d(); }
  }
  static void m26(boolean p, boolean q, int k) { do { try { if (p) break; a(); } finally { b(); } c(); } while (q); }
  static void m27(boolean p, boolean q, int k) {
    x: while (p) { while (q) { try { if (p) continue x; a(); } finally { b(); } } c(); }
  }
  static void m28(boolean p, boolean q, int k) {
    try { if (p) return; a(); } catch (Exception e) { return; } finally { int i = 0; b(); }
  }
  static T m29(T x) { try { return x; } finally { x = null; } }
  static Object m30(boolean p) { try { if (p) return null; } finally { a(); } return T.class; }
}

class T {
  static void a() { }
  static void b() { }
  static void c() { }
  static void d() { }
  static void e() { }
  static void m1(boolean p, boolean q, int k) { throw null; }
  static void m2(boolean p, boolean q, int k) { if (p) throw null; a(); }
  static void m3(boolean p, boolean q, int k) { while (p) { if (q) throw null; a(); } }
  static void m4(boolean p, boolean q, int k) { while (p) { if (q) break; throw null; } }
  static void m5(boolean p, boolean q, int k) { do { throw null; } while (p); }
  static void m6(boolean p, boolean q, int k) { try { throw null; } catch (Exception e) { a(); } b(); }
  static void m7(boolean p, boolean q, int k) { try { a(); } catch (RuntimeException | Error e) { b(); } c(); }
  static void m8(boolean p, boolean q, int k) { try (Object o = null) { a(); } }
  static void m9(boolean p, boolean q, int k) { try (T y = null; Object o = y; ) { a(); } catch (Error e) { b(); } }
  static void m10(boolean p, boolean q, int k) { while (p) { try (Object o = null) { if (q) break; a(); } b(); } }
  static void m11(boolean p, boolean q, int k) {
    try { if (p) return; int i = 0; a(); } catch (Exception e) { int j = 0; } b();
  }
  static void m12(boolean p, boolean q, int k) { assert p : new T(); }
  static void m13(boolean p, boolean q, int k) { assert p; a(); }
  static void m14(boolean p, boolean q, int k) {
    while (p) { try { if (q) continue; a(); } catch (Exception e) { b(); } c(); }
  }
}

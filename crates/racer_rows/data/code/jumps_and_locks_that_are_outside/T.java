class T {
  static final Lock lock = null;
  static void a() { }
  static void b() { }
  static void c() { }
  static void d() { }
  static void e() { }
  static void m1(boolean p, boolean q, int k) { break; }
  static void m2(boolean p, boolean q, int k) { continue; }
  static void m3(boolean p, boolean q, int k) { switch (k) { case 1: continue; default: } }
  static void m4(boolean p, boolean q, int k) { x: { continue x; } }
  static void m5(boolean p, boolean q, int k) { while (p) { break y; } }
  static void m6(boolean p, boolean q, int k) { x: a(); break x; }
  static void m7(boolean p, boolean q, int k) { x: { while (p) continue x; } }
  static void m8(boolean p, boolean q, int k) { try (R r = null) { a(); } }
  static void m9(boolean p, boolean q, int k) { try (S s = null) { a(); } }
  static void m10(boolean p, boolean q, int k) { try { a(); } catch (Exception e) { try (R r = null) { } break; } }
  static void m11(boolean p, boolean q, int k) { try { a(); } finally { lock.unlock(); } }
  static void m12(boolean p, boolean q, int k) {
    try { if (p) return; a(); } finally { lock.lock(); try { b(); } finally { lock.unlock(); } }
  }
  static void m13(boolean p, boolean q, int k) {
    try { a(); } finally { try { b(); } catch (Exception e) { lock.unlock(); } }
  }
  static void m14(boolean p, boolean q, int k) { try { a(); } catch (Exception e) { lock.unlock(); } }
  static void m15(boolean p, boolean q, int k) { try { a(); } finally { lock.unlock(1); } }
  static void m16(boolean p, boolean q, int k) { lock.lock(); a(); try { b(); } finally { lock.unlock(); } }
}
class R {
  void close() { }
}
class S {
  void close(int k) { }
}

class T {
  static final Lock lock = null;
  static void a() { }
  static void b() { }
  static void c() { }
  static void d() { }
  static void e() { }
  static void m1(boolean p, boolean q, int k) { x: synchronized (T.class) { if (p) break x; a(); } }
  static void m2(boolean p, boolean q, int k) { x: { synchronized (T.class) { if (p) break x; a(); } b(); } c(); }
  static void m3(boolean p, boolean q, int k) {
    try { synchronized (T.class) { if (p) return; a(); } } finally { b(); }
  }
  static void m4(boolean p, boolean q, int k) { while (p) { synchronized (T.class) { if (q) break; a(); } b(); } }
  static void m5(boolean p, boolean q, int k) {
    while (p) { lock.lock(); try { if (q) break; a(); } finally { lock.unlock(); } b(); }
  }
  static void m6(boolean p, boolean q, int k) {
    try { lock.lock(); try { if (p) return; a(); } finally { lock.unlock(); } } finally { b(); }
  }
  static void m7(boolean p, boolean q, int k) {
    lock.lock(); try { if (p) return; a(); } finally { lock.unlock(); } b();
  }
  static void m8(boolean p, boolean q, int k) {
    switch (k) { case 1: lock.lock(); try { a(); break; } finally { lock.unlock(); } default: b(); }
  }
  static void m9(boolean p, boolean q, int k) {
    do { lock.lock(); try { if (p) continue; a(); } finally { lock.unlock(); } b(); } while (q);
  }
  static void m10(boolean p, boolean q, int k) {
    x: { lock.lock(); try { if (p) break x; a(); } finally { lock.unlock(); } b(); }
  }
  static void m11(boolean p, boolean q, int k) {
    try (Object o = null) { lock.lock(); try { a(); } finally { lock.unlock(); } }
  }
  static void m12(boolean p, boolean q, int k) {
    for (int i = 0; p; a()) { lock.lock(); try { if (q) continue; b(); } finally { lock.unlock(); } c(); }
  }
  static void m13(boolean p, boolean q, int k) {
    lock.lock(); try { throw null; } catch (Exception e) { a(); } finally { lock.unlock(); }
  }
}

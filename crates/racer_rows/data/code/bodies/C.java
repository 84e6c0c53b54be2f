class C {
  C next; Runnable r = () -> { };
  C() { }
  void f(C[] all, Object o) {
    for (C b : all) { C c = o; next = c; }
    for (int i = 0, j = i; i < 3; i++) g();
  }
  void g() { return; }
  Object h(int k) { if (k > 0) return next; else next = null; for (;;) { } }
}

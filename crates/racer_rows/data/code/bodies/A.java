class A {
  int n = 1; A next;
  A() { }
  synchronized void f(int k) { while (k > 0) k--; }
  A g(Object o) { return o; }
  static synchronized int h(A a) { if (a == null) { A b = a; return b.n; } return 0; }
}

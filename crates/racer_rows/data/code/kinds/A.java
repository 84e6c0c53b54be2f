@ThreadSafe class A {
  static final int a = 1, b;
  volatile A[] c;
  A d;
  String e;
  B f() { return null; }
  void g(int x, B y, B[] z) { }
}
class B { A<B> h; p.A i; java.util.List<A> j; boolean k; }

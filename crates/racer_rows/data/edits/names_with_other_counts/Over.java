@ThreadSafe
class Over {
  int n;
  void f(int a) { n = a; }
  void g() { f(1); }
  void h() { g(); n = 2; }
}

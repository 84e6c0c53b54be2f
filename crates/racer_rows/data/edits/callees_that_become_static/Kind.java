@ThreadSafe
class Kind {
  int n;
  Kind k;
  void set(Kind o) { o.n = 1; }
  void go() { set(k); }
  void two(Kind a) { a.go(); }
}

@ThreadSafe
class Deep {
  int n;
  void a() { b(); }
  void b() { n = 1; }
  void c() { b(); n = 2; }
  void d() { c(); }
}

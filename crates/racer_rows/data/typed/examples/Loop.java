@ThreadSafe
class Loop {
  int c;
  void m() { n(); }
  void n() { m(); }
  void k() { m(); this.c = 1; }
}

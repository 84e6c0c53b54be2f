@ThreadSafe
class Meter {
  int n;
  synchronized int read() { return n; }
  void write() { n = 1; }
}

@ThreadSafe
class Forms {
  int n;
  private final Lock lock = new ReentrantLock();
  private <T> int sum(int first, int... more) { return n; }
  void run() {
    Runnable r = () -> { n = 1; };
    Runnable s = new Runnable() { public void run() { n = 2; } };
    n = sum(1, 2, 3);
  }
  void put() {
    final Lock l = this.lock;
    l.lock();
    try { n = 4; } finally { l.unlock(); }
  }
}

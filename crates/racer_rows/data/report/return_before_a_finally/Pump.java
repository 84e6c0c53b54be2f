@ThreadSafe
class Pump {
  int on;
  int runs;
  void start(boolean ok) {
    if (!ok) throw new IllegalStateException();
    on = 1;
  }
  int run() {
    try {
      synchronized (this) {
        if (on == 0) return 0;
      }
    } catch (Exception e) {
      on = 2;
    } finally {
      runs++;
    }
    return 1;
  }
}

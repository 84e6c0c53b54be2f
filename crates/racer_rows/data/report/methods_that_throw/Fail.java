@ThreadSafe
class Fail {
  int a;
  int b;
  private void fail() { throw new Error(); }
  private int pick(boolean t) {
    while (t) {
      if (t) return 1;
    }
    throw new Error();
  }
  void stop() { fail(); a = 1; }
  void go() { pick(true); b = 1; }
}

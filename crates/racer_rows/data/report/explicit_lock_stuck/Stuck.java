@ThreadSafe
class Stuck {
  final Lock lock;
  final Lock plain;
  int n;
  Stuck() { this.plain = 1; }
  void onNull() { Stuck s = new Stuck(); s.take(); n = 1; }
  private void take() { lock.lock(); try { return; } finally { lock.unlock(); } }
  void onPlain() { Stuck s = new Stuck(); s.takePlain(); n = 2; }
  private void takePlain() { plain.lock(); try { } finally { plain.unlock(); } }
}

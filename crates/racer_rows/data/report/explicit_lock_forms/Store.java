@ThreadSafe
class Store {
  private final java.util.concurrent.locks.Lock lock;
  static final ReentrantLock all = new ReentrantLock(true);
  final Lock[] many = new Lock[2];
  final Lock<Store> named = null;
  final ReadWriteLock both = null;
  int n;
  Store next;
  Store() { this.lock = new ReentrantLock(); }
  int inside() {
    this.lock.lock();
    try {
      if (n == 0) return 1;
      all.lock();
      try { synchronized (this) { n = 2; } } finally { all.unlock(); }
    } finally { this.lock.unlock(); }
    return n;
  }
  synchronized void around() { lock.lock(); try { n = 3; } finally { lock.unlock(); } }
  static void ofClass(Store s) { all.lock(); try { s.n = 4; } finally { all.unlock(); } }
  static void ofObject(Store s) { lock.lock(); try { s.n = 5; } finally { lock.unlock(); } }
  void byParameter(Lock lock) { lock.lock(); try { n = 6; } finally { lock.unlock(); } }
  void byLocal() { Lock all = null; this.all.lock(); try { n = 7; } finally { this.all.unlock(); } all.lock(); try { n = 8; } finally { all.unlock(); } }
  void byArray() { many.lock(); try { n = 9; } finally { many.unlock(); } }
  void byType() { named.lock(); try { n = 10; } finally { named.unlock(); } }
  void byKind() { both.lock(); try { n = 11; } finally { both.unlock(); } }
  void byClass() { Store.all.lock(); try { n = 12; } finally { Store.all.unlock(); } }
  void another() { lock.lock(); try { n = 13; } finally { all.unlock(); } }
  void mixed() { lock.lock(); try { n = 14; } finally { this.lock.unlock(); } }
  void between() { lock.lock(); n = 15; try { n = 16; } finally { lock.unlock(); } }
  void further() { lock.lock(); try { n = 17; } finally { lock.unlock(); n = 18; } }
  void deep() { lock.lock(); try { n = 19; } finally { if (n == 0) lock.unlock(); } }
  void tried() { if (lock.tryLock()) n = 20; }
  void open() { lock.lock(); n = 21; lock.unlock(); }
  void calls() { next.byParameter(all); back(all); }
  void back(Lock other) { other.lock(); try { n = 22; calls(); } finally { other.unlock(); } }
}

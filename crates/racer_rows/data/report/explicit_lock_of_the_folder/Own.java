class Lock { int held; void lock() { held = 1; } void unlock() { held = 0; } }
@ThreadSafe
class Own {
  final Lock lock = new Lock();
  final ReentrantLock other = null;
  int n;
  void byObject() { lock.lock(); try { n = 1; } finally { lock.unlock(); } }
  void byLock() { other.lock(); try { n = 2; } finally { other.unlock(); } }
}

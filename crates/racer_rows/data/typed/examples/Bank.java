@ThreadSafe
class Bank {
  private final Lock lock = new ReentrantLock();
  int total;
  void put() {
    lock.lock();
    try {
      total = 1;
    } finally {
      lock.unlock();
    }
  }
  int peek() { return total; }
}

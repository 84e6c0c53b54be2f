@ThreadSafe
class Bank {
  private Lock lock = new ReentrantLock();
  int total;
  void put() {
    lock.lock();
    try {
      total = 1;
    } finally {
      lock.unlock();
    }
  }
  int peek() { return total; }
}

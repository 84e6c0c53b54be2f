import java.util.concurrent.locks.*;
@ThreadSafe
class Lock2 {
  int n;
  final Lock lock = new ReentrantLock();
  void go() { synchronized (lock) { n = 1; } }
  void see() { go(); }
}

package shop.stock;

import java.util.concurrent.locks.ReentrantLock;

/** What the till of the stock room sold: another class of that name. */
@ThreadSafe
public class Till {
  private final ReentrantLock lock = new ReentrantLock();
  private int sold;
  private int shut;

  public void sell(int n) {
    lock.lock();
    /* für später */ sold = sold + n;
    lock.unlock();
  }

  protected void finalize() {
    shut = 1;
  }
}

package site;

/** How often a site was visited, and when last. */
@ThreadSafe
public class Visits {
  private int count;
  private long last;

  public void visit(long now) {
    synchronized (this) {
      count = count + 1;
    }
    last = now;
  }

  public synchronized int count() {
    return count;
  }
}

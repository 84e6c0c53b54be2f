package shop;

import java.util.HashMap;
import java.util.Map;
import java.util.logging.Logger;

/** Stock counts by article. */
public class Stock {
  private static final Logger LOG = Logger.getLogger("stock");
  private final Map<String, Integer> counts = new HashMap<>();
  private int changes;
  private String last;
  private volatile boolean closed;

  public Stock(String first) {
    this.last = first;
  }

  public synchronized void add(String name, int n) {
    if (closed || n <= 0) {
      return;
    }
    Integer old = counts.get(name);
    counts.put(name, old == null ? n : old + n);
    noteChange(name);
  }

  private void noteChange(String name) {
    changes++;
    last = name;
    LOG.info("changed " + name);
  }

  public synchronized int total() {
    int sum = 0;
    for (Integer n : counts.values()) {
      sum += n;
    }
    return sum;
  }

  public String getLast() {
    return last;
  }

  public int getChanges() {
    return changes;
  }

  public void close() {
    closed = true;
  }

  public String state(int code) {
    switch (code) {
      case 0: return "new";
      default: return closed ? "closed" : "open";
    }
  }
}

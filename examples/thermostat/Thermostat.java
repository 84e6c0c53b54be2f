package home;

/** The wanted temperature of a room, with a count of changes. */
@ThreadSafe
public class Thermostat {
  private int wanted;
  private int changes;
  private final Object lock = new Object();

  public void set(int degrees) {
    synchronized (lock) {
      wanted = degrees;
    }
    noteChange();
  }

  public int get() {
    synchronized (lock) {
      return wanted;
    }
  }

  private void noteChange() {
    changes++;
  }

  @MainThread
  public void showChanges() {
    System.out.println(changes);
  }
}

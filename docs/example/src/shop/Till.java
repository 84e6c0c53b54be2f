package shop;

/** What is in the till. */
public class Till {
  private int coins;
  private int bills;
  private String last;
  private Drawer drawer;

  public synchronized void take(int n) {
    coins = coins + n;
    drawer.open = true;
  }

  public int coins() {
    return coins;
  }

  public boolean isOpen() {
    return drawer.open;
  }

  public void note(String name) {
    last = name;
  }

  void count(int n) {
    bills = n;
  }

  public void change(Drawer next) {
    drawer = next;
    add(1);
  }

  private void add(int n) {
    coins = coins + n;
  }

  public int rate(String text) {
    last = text;

    return super.hashCode();
  }
}

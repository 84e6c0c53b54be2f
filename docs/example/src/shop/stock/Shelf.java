package shop.stock;

class Shelf<T> {
  private int count;

  synchronized void put(T thing) {
    count++;
  }

  static class Board extends Thread {
    private final Object lock = new Object();

    void move() {
      synchronized (lock) {
      }
    }
  }
}

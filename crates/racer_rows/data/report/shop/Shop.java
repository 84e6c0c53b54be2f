@ThreadSafe
class Shop {
  Shelf shelf;
  int sold;
  synchronized void sell(int n) {
    note(n);
  }
  private void note(int n) {
    sold = sold + n;
  }
  int sold() {
    return sold;
  }
  void move(Shelf next) {
    this.shelf = next;
    next.load = 0;
  }
  @MainThread
  void show() {
    sold = 0;
  }
  int count() { return count(); }
  interface Buyer { }
}
class Shelf {
  int load;
}

class Pair {
  int a;
  int b;
  void put() { this.a = 1; }
  void both() { synchronized (this) { this.a = 2; this.b = 3; } }
}

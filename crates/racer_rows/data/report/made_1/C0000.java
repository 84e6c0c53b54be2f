@ThreadSafe
class C0000 {
  int a;
  void set() { this.a = 1; }
  synchronized int get() { return this.a; }
  int deep() { return this.a; }
}

@ThreadSafe
class C0002 {
  int a;
  void set() { this.a = 1; }
  synchronized int get() { return this.a; }
  int deep() { return this.a; }
}

@ThreadSafe
class C0008 {
  int a;
  C0009 next;
  void set() { this.a = 1; }
  synchronized int get() { return this.a; }
  int deep() { return this.next.deep(); }
  void link(C0009 n) { this.next = n; this.next.a = 2; }
}

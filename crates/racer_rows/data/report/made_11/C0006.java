@ThreadSafe
class C0006 {
  int a;
  C0007 next;
  void set() { this.a = 1; }
  synchronized int get() { return this.a; }
  int deep() { return this.next.deep(); }
  void link(C0007 n) { this.next = n; this.next.a = 2; }
}

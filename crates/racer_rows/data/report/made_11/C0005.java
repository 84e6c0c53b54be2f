@ThreadSafe
class C0005 {
  int a;
  C0006 next;
  void set() { this.a = 1; }
  synchronized int get() { return this.a; }
  int deep() { return this.next.deep(); }
  void link(C0006 n) { this.next = n; this.next.a = 2; }
}

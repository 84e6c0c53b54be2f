@ThreadSafe
class C0003 {
  int a;
  C0004 next;
  void set() { this.a = 1; }
  synchronized int get() { return this.a; }
  int deep() { return this.next.deep(); }
  void link(C0004 n) { this.next = n; this.next.a = 2; }
}

@ThreadSafe
class C0004 {
  int a;
  C0005 next;
  void set() { this.a = 1; }
  synchronized int get() { return this.a; }
  int deep() { return this.next.deep(); }
  void link(C0005 n) { this.next = n; this.next.a = 2; }
}

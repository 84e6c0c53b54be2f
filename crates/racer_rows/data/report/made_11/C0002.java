@ThreadSafe
class C0002 {
  int a;
  C0003 next;
  void set() { this.a = 1; }
  synchronized int get() { return this.a; }
  int deep() { return this.next.deep(); }
  void link(C0003 n) { this.next = n; this.next.a = 2; }
}

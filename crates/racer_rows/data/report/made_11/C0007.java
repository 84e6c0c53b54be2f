@ThreadSafe
class C0007 {
  int a;
  C0008 next;
  void set() { this.a = 1; }
  synchronized int get() { return this.a; }
  int deep() { return this.next.deep(); }
  void link(C0008 n) { this.next = n; this.next.a = 2; }
}

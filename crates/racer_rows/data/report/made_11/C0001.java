@ThreadSafe
class C0001 {
  int a;
  C0002 next;
  void set() { this.a = 1; }
  synchronized int get() { return this.a; }
  int deep() { return this.next.deep(); }
  void link(C0002 n) { this.next = n; this.next.a = 2; }
}

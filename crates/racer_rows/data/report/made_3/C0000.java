@ThreadSafe
class C0000 {
  int a;
  C0001 next;
  void set() { this.a = 1; }
  synchronized int get() { return this.a; }
  int deep() { return this.next.deep(); }
  void link(C0001 n) { this.next = n; this.next.a = 2; }
}

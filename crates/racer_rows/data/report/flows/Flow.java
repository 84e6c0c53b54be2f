class P { P f; P g; int v; static P first; volatile P w; Object o; }

@ThreadSafe
class Flow {
  P a;
  P b;
  int n;
  boolean t;
  static int count;
  P[] all;

  Flow() { n = 1; a = new P(); }
  void fields() { a.f.v = 1; n = b.g.v; }
  void assigned(P p) { p.f = a; p = b; p.v = 2; }
  void compound(int k) { n += k; n++; a.v--; }
  void choice(P p) { P x = t ? a : b; x.v = 1; a.v = 2; }
  void sides(P p) { if (t) p = a; else p = b; p.v = 1; }
  void one_side(P p) { if (t) { p = a; } p.v = 1; b.v = 2; }
  void loop(P p) { while (t) { p = p.f; } p.v = 1; }
  void two_rounds(P p, P q) { while (t) { q.v = 1; q = p; p = a; } }
  void for_loop() { for (int i = 0; i < n; i++) { a.v = i; } }
  void each() { for (P p : all) { p.v = 1; } }
  P returned() { if (t) return a; return b; }
  P same() { if (t) return a; return a; }
  P fresh() { P p = new P(); p.v = 1; p.f = a; return p; }
  P owned_or_not() { P p = new P(); if (t) p = a; return p; }
  synchronized void locked() { n = 2; a.v = 3; }
  void inside() { synchronized (a) { n = 3; synchronized (b) { a.v = 4; } b.v = 5; } n = 4; }
  int early() { synchronized (this) { if (t) return n; n = 5; } return n; }
  static synchronized int class_lock() { count = 1; return P.first.v; }
  void of_class() { P.first = a; P.first.v = 1; Flow.count = 2; }
  void volatile_field() { a.w = b; a.w.v = 1; }
  void other_kind() { a.o = b; Object x = a.o; }
  void cast(Object x) { P p = (P) x; p.v = 1; }
  void outside(P p) { unknown(p); p.hashCode(); String s = "a" + n; n = s.length(); }
  void not_taken() { return; }
  void callee(P p, P q) { p.v = 1; q.f = p; }
  void caller() { callee(a, b); callee(new P(), a.f); callee(returned(), same()); }
  void locked_caller() { synchronized (this) { callee(a, b); } locked(); }
  P through() { return same().f; }
  P fresh_through() { return fresh().f; }
  void receiver() { Flow other = new Flow(); other.locked(); other.fields(); }
  static void of_static(P p) { p.v = 6; count++; }
  void calls_static() { of_static(a); Flow.of_static(b.f); }
  @MainThread void on_main() { n = 7; a.v = 8; }
  private void hidden() { n = 9; }
  void shows() { hidden(); }
}

@NotThreadSafe
class Unchecked { int n; synchronized void f() { n = 1; } void g() { n = 2; } }

class Plain { int n; void f() { n = 1; } void g() { synchronized (this) { n = 2; } } }

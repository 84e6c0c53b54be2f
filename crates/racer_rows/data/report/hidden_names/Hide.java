class P { int v; }
@ThreadSafe
class Hide {
  P p;
  <P> void set(P q) { q.v = 1; }
  void get() { class P { int v; } P q = new P(); q.v = 2; this.p.v = 3; }
  void own() { Hide.this.p.v = 4; Object o = p::toString; }
}

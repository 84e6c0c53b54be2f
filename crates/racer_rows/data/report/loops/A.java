@ThreadSafe class A {
  A p;
  A q;
  int count;

  void shift(boolean t) {
    A a = null, b = null, c = null, d = null, e = null, f = null, g = null, h = null;
    while (t) { h = g; g = f; f = e; e = d; d = c; c = b; b = a; a = this.p; }
    h.count = 1;
  }

  void nest(boolean t) {
    A x = null, y = null, z = this.q;
    while (t) {
      y = null;
      while (t) {
        z = y;
        while (t) { z.count = 1; z = z.p; }
        y = x;
      }
      x = this.p;
    }
    z.count = 2;
  }

  void again(boolean t) {
    A o = this.p;
    set(o);
    while (t) {
      set(o);
      synchronized (this) { set(o); }
      set(this.q);
      while (t) { o = this.q; set(o); return; }
    }
    set(o);
  }

  private void set(A o) { o.count = o.count + 1; o.p = this.q; }
}

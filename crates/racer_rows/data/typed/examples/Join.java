class P { int v; } @ThreadSafe class Join { P a; boolean c; private void f(P p, P q) { P r = c ? p : q; r.v = 1; } void go() { f(this.a, this.a); } }

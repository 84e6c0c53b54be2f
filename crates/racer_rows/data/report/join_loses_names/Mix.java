class P { P f; int v; } @ThreadSafe class Mix { P a; P b; boolean t; private void pick(P p, P q) { if (t) p = q; p.f = q; } public void run() { pick(this.a, this.b); this.a.f.v = 1; } }

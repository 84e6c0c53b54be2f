class P { int n; P next; Object any; static int count; static P last; static Object lock; }
class Q { P p; int n; }
@ThreadSafe class OfField { P p; int m() { return this.p.n; } }
@ThreadSafe class OfParameter { int m(P p) { return p.next.n; } }
@ThreadSafe class OfThis { int n; int m() { return n; } }
@ThreadSafe class OfLocal { P p; int m() { P x = this.p; return x.n; } }
@ThreadSafe class OfNull { int m() { P x = null; return x.n; } }
@ThreadSafe class OfUnset { int m() { P x; return x.n; } }
@ThreadSafe class OfOutside { int m() { P x = (P) other(); return x.n; } }
@ThreadSafe class OfStatic { int m() { return P.count + P.last.n; } }
@ThreadSafe class OfStaticByObject { P p; int m() { return this.p.count; } }
@ThreadSafe class OfResult { P p; P get() { return p; } int m() { return get().n; } }
@ThreadSafe class OfNew { int m() { return new P().n; } }
@ThreadSafe class OfDeep { Q q; int m() { return this.q.p.next.next.n; } }
@ThreadSafe class OfAssignment { P p; P q; int m() { return (this.p = this.q).n; } }
@ThreadSafe class OfNullAssigned { P p; P q; int m() { P x = this.q; x = null; return x.n; } }
@ThreadSafe class OfElement { P[] ps; int m() { return ps[0].n; } }

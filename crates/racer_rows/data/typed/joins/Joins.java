class P { int n; P next; Object any; }
class Q { int n; }
@ThreadSafe class SameClass { P p; P q; void m(boolean b) { P x = b ? p : q; x.n = 1; } }
@ThreadSafe class WithNull { P p; void m(boolean b) { P x = b ? p : null; x.n = 1; } }
@ThreadSafe class TwoClasses { P p; Q q; Object any; void m(boolean b) { Object x = b ? p : q; any = x; synchronized (x) { } } }
@ThreadSafe class ClassAndObject { P p; Object any; void m(boolean b) { any = b ? p : P.class; } }
@ThreadSafe class ClassAndOther { Object any; void m(boolean b, Object o) { any = b ? P.class : o; } }
@ThreadSafe class PlainAndObject { P p; Object any; void m(boolean b) { any = b ? p : 1; } }
@ThreadSafe class PlainAndPlain { int n; void m(boolean b) { n = b ? 1 : 2; } }
@ThreadSafe class NullAndNull { Object any; void m(boolean b) { any = b ? null : null; } }
@ThreadSafe class OneBranch { P p; void m(boolean b) { P x = p; if (b) x = null; x.n = 1; } }
@ThreadSafe class BothBranches { P p; void m(boolean b) { P x; if (b) x = p; else x = p.next; x.n = 1; } }
@ThreadSafe class FirstKept { P p; Q q; void m(boolean b) { Object o = q; if (b) o = p; ((P) o).n = 1; } }
@ThreadSafe class ClassOfBoth { P p; Q q; P r; void m(boolean b) { r = b ? p : (P) (Object) q; } }
@ThreadSafe class Switched { P p; void m(int k) { P x = p; switch (k) { case 1: x = p.next; break; case 2: x = null; default: x = p; } x.n = 1; } }
@ThreadSafe class Tried { P p; void m() { P x = p; try { x = p.next; } finally { x.n = 1; } x.n = 2; } }

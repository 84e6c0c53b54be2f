class P { int n; P next; Object any; static P last; P() { n = 1; } P(P p) { next = p; } }
class Q { int n; P p; static P shared; P read() { return p; } }
class H { static P make(P p) { return new P(p); } static Object read(P p) { return p.any; } static int plain() { return new P().n; } }
@ThreadSafe class ReadsPlain { int m() { return new P().n; } }
@ThreadSafe class ReadsStatic { P m() { new P(); return P.last; } }
@ThreadSafe class ReadsItself { P m(P p) { P x = new P(); return p.next; } }
@ThreadSafe class ReadsOther { Object m(P p) { P x = new P(); return p.any; } }
@ThreadSafe class ReadsFirst { P m(P p) { P x = p.next; return new P(); } }
@ThreadSafe class InAnotherMethod { void m() { new P(); } P k(P p) { return p.next; } }
@ThreadSafe class InHelpers { P m(P p) { return H.make(p); } Object k(P p) { return H.read(p); } }
@ThreadSafe class InOneHelper { P m(P p) { return H.make(p); } }
@ThreadSafe class InTheOtherHelper { Object k(P p) { return H.read(p); } }
@ThreadSafe class InPlainHelper { Object k(P p) { return H.read(p); } int m() { return H.plain(); } }
@ThreadSafe class NotReached { P m(P p) { return new P(p); } private P k(P p) { return p.next; } }
@ThreadSafe class OfAnotherClass { P m(Q q) { P x = new P(); return q.p; } }
@ThreadSafe class OfAnotherStatic { P m() { Q q = new Q(); return Q.shared; } }
@ThreadSafe class ByAMethod { P m(Q q) { Q x = new Q(); return q.read(); } }
@ThreadSafe class Stores { void m(P p) { P x = new P(); p.next = x; } }
@ThreadSafe class OfItself { OfItself o; OfItself m() { return new OfItself(); } int k() { return 1; } }
@ThreadSafe class ReadOfItself { ReadOfItself o; ReadOfItself m() { return new ReadOfItself(); } ReadOfItself k() { return o; } }

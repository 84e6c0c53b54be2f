class P { int n; P next; Object any; static int count; static P last; static Object lock; String name; }
@ThreadSafe class Same { P p; void m(P x) { this.p = x; x.next = p; } }
@ThreadSafe class IntoPlain { int n; void m(P x) { this.n = 1; x.n = 2; } }
@ThreadSafe class NullIntoClass { P p; void m() { this.p = null; } }
@ThreadSafe class NullIntoOther { Object any; void m() { this.any = null; } }
@ThreadSafe class PlainIntoOther { Object any; void m() { this.any = 1; } }
@ThreadSafe class PlainIntoLong { Long any; void m(long n) { any = n; } }
@ThreadSafe class ObjectIntoOther { Object any; void m(P x) { this.any = x; } }
@ThreadSafe class ClassIntoOther { Object any; void m() { this.any = P.class; } }
@ThreadSafe class TextIntoOther { String text; void m() { text = "a" + 1; } }
@ThreadSafe class OtherIntoOther { Object any; void m(Object o) { any = o; any = o.toString(); } }
@ThreadSafe class OtherIntoClass { P p; void m(Object o) { p = (P) o; } }
@ThreadSafe class BaseIsNull { void m() { P x = null; x.n = 1; } }
@ThreadSafe class BaseIsOther { void m(P[] ps) { ps[0].n = 1; } }
@ThreadSafe class BaseIsClass { void m(P x) { P.last = x; P.count = 1; P.lock = x; } }
@ThreadSafe class NullIntoStatic { void m() { P.last = null; } }
@ThreadSafe class NewIntoClass { P p; void m() { p = new P(); } }
@ThreadSafe class LocalIntoField { P p; void m(P x) { P y = x; p = y; } }
@ThreadSafe class UnsetIntoField { P p; void m() { P y; p = y; } }
@ThreadSafe class Counted { int n; void m() { n++; n += 2; } }
@ThreadSafe class OfAnother { P p; void m(OfAnother o) { o.p = p; this.p = o.p; } }

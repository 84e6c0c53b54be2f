class P { int n; P next; P same() { return this; } void take(P p) { n = 1; } static P of(P p) { return p; } void any(Object o) { n = 1; } void count(int k) { n = k; } }
@ThreadSafe class Receiver { P p; void m() { p.same(); } }
@ThreadSafe class NullReceiver { void m() { P x = null; x.same(); } }
@ThreadSafe class OtherReceiver { void m(P[] ps) { ps[0].same(); } }
@ThreadSafe class Chained { P p; void m() { p.same().same().n = 1; } }
@ThreadSafe class NullArgument { P p; void m() { p.take(null); } }
@ThreadSafe class NullArgumentOfOther { P p; void m() { p.any(null); } }
@ThreadSafe class PlainArgumentOfOther { P p; void m() { p.any(1); } }
@ThreadSafe class ObjectArgument { P p; void m() { p.take(p.next); p.any(p); p.count(1); } }
@ThreadSafe class StaticCall { P p; void m() { P.of(p).n = 1; } }
@ThreadSafe class StaticCallOfNull { void m() { P.of(null); } }
@ThreadSafe class NullReturned { P m() { return null; } }
@ThreadSafe class NullOfOtherReturned { Object m() { return null; } }
@ThreadSafe class PlainOfOtherReturned { Object m() { return 1; } }
@ThreadSafe class OtherReturned { P m(Object o) { return (P) o; } }
@ThreadSafe class Returned { P p; P m() { return p; } Object k() { return p; } int n() { return 1; } }
@ThreadSafe class Outsides { P p; void m() { System.out.println(p); java.util.Objects.hash(p, null); } }
@ThreadSafe class OfPrivate { P p; void m() { put(null); } private void put(P x) { p = x; } }
@ThreadSafe class OfRecursive { int n; void m() { k(); n = 1; } private void k() { k(); } }
@ThreadSafe class OfOverloads { int n; void m() { k(1); n = 1; } private void k(int a) { } private void k(long a) { } }
@ThreadSafe class OfThrown { int n; void m() { fail(); n = 1; } private void fail() { throw new Error(); } }
@ThreadSafe class ThrowsItself { int n; void m() { n = 1; throw new Error(); } }
@ThreadSafe class MayThrow { int n; void m(boolean b) { check(b); n = 1; } private void check(boolean b) { if (b) throw new Error(); } }

class P { int n; P next; }
class Late { static void last(P p) { P x = null; x.n = 1; } }
@ThreadSafe class ByNumber { void a() { c(); } void b() { P x = null; x.n = 1; } private void c() { P x = null; x.n = 2; } }
@ThreadSafe class Earlier { private void c() { P x = null; x.n = 2; } void b() { P x = null; x.n = 1; } void a() { c(); } }
@ThreadSafe class InReading { P p; void m(boolean b) { if (b) { p.n = 1; } else { p = null; } p.next = null; } }
@ThreadSafe class InOtherClass { void m(P p) { Late.last(p); P x = null; x.n = 1; } }
@ThreadSafe class ArgumentsFirst { P p; void m(P q) { P x = null; x.next = x.next.next; } }
@ThreadSafe class WithoutEntry { private void m() { P x = null; x.n = 1; } }
@ThreadSafe class Nothing { int n; }
class NotChecked { void m() { P x = null; x.n = 1; } }
@ThreadSafe class Unused { private void never() { P x = null; x.n = 1; } void m() { } }

class P { int n; P next; static void fail() { throw new Error(); } static int loop() { return loop(); } }
@ThreadSafe class NeedBehindReturn { void m() { return; P x = null; x.n = 1; } }
@ThreadSafe class NeedBehindThrow { void m() { throw new Error(); P x = null; x.n = 1; } }
@ThreadSafe class UnreadBehindReturn { void m() { return; P.loop(); } }
@ThreadSafe class UnreadBehindThrow { void m() { throw new Error(); P.loop(); } }
@ThreadSafe class NoReturnBehindReturn { void m() { return; P.fail(); } }
@ThreadSafe class NewBehindReturn { P m(P p) { return p.next; new P(); } }
@ThreadSafe class ReadBehindReturn { P m(P p) { return new P(); p = p.next; } }
@ThreadSafe class LockBehindReturn { int n; void m() { return; P x = null; synchronized (x) { n = 1; } } }
@ThreadSafe class OneSideReturns { P p; void m(boolean b) { P x = p; if (b) { x = null; return; } x.n = 1; } }
@ThreadSafe class OneSideThrows { P p; void m(boolean b) { P x = p; if (b) { x = null; throw new Error(); } x.n = 1; } }
@ThreadSafe class BothSidesReturn { P p; P m(boolean b) { P x = null; if (b) { return p; } else { return p; } x.n = 1; } }
@ThreadSafe class ReturnInLoop { P p; void m(boolean b) { P x = p; while (b) { x.n = 1; x = null; return; } x.n = 2; } }
@ThreadSafe class CalledBehindReturn { void m() { return; k(); } private void k() { P x = null; x.n = 1; } }

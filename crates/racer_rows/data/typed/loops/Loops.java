class P { int n; P next; Object any; }
@ThreadSafe class Still { P p; void m(boolean b) { P x = p; while (b) { x.n = 1; x = x.next; } x.n = 2; } }
@ThreadSafe class SecondRound { P p; void m(boolean b) { P x = p; while (b) { x.n = 1; x = null; } } }
@ThreadSafe class BehindLoop { P p; void m(boolean b) { P x = p; while (b) { x = null; } x.n = 1; } }
@ThreadSafe class SetInLoop { P p; void m(boolean b) { P x = null; while (b) { x = p; x.n = 1; } } }
@ThreadSafe class SetBeforeLoop { P p; void m(boolean b) { P x; x = p; while (b) { x.n = 1; } x.n = 2; } }
@ThreadSafe class ThirdRound { P p; void m(boolean b) { P x = p; P y = p; P z = p; while (b) { z.n = 1; z = y; y = x; x = null; } } }
@ThreadSafe class InnerLoop { P p; void m(boolean b) { P x = p; P y = p; while (b) { while (b) { y.n = 1; y = x; } x = null; } } }
@ThreadSafe class OtherInLoop { P p; Object o; void m(boolean b, Object q) { Object x = p; while (b) { o = x; x = q; } synchronized (x) { o = x; } } }
@ThreadSafe class LocalInLoop { P p; void m(boolean b) { while (b) { P x = null; if (b) x = p; P y = x; } } }
@ThreadSafe class For { P p; void m() { P x = p; for (int i = 0; i < 3; i++) { x.n = i; x = x.next; } } }
@ThreadSafe class DoWhile { P p; void m(boolean b) { P x = p; do { x.n = 1; x = null; } while (b); } }
@ThreadSafe class Broken { P p; void m(boolean b) { P x = p; while (b) { x.n = 1; if (b) { x = null; break; } } } }
@ThreadSafe class BrokenBehind { P p; void m(boolean b) { P x = p; while (b) { if (b) { x = null; break; } } x.n = 1; } }
@ThreadSafe class LocksInLoop { P p; void m(boolean b) { Object x = p; while (b) { synchronized (x) { x = null; } } } }

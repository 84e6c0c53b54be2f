class P { int n; P next; }
@ThreadSafe class OfThis { int n; void m() { synchronized (this) { n = 1; } } synchronized void k() { n = 2; } static synchronized void s() { } }
@ThreadSafe class OfClass { int n; void m() { synchronized (P.class) { n = 1; } } }
@ThreadSafe class OfOther { int n; private final Object lock = new Object(); void m() { synchronized (lock) { n = 1; } } }
@ThreadSafe class OfObject { P p; void m() { synchronized (p.next) { p.n = 1; } } }
@ThreadSafe class OfNull { P p; void m() { P x = null; synchronized (x) { p.n = 1; } } }
@ThreadSafe class OfUnset { int n; void m(boolean b) { Object x; if (b) x = this; synchronized (x) { n = 1; } } }
@ThreadSafe class BeforeItsBody { void m() { P x = null; synchronized (x) { x.n = 1; } } }
@ThreadSafe class Explicit { int n; private final java.util.concurrent.locks.Lock own = new java.util.concurrent.locks.ReentrantLock(); void m() { own.lock(); try { n = 1; } finally { own.unlock(); } } }
@ThreadSafe class InLocal { int n; private final java.util.concurrent.locks.Lock own = new java.util.concurrent.locks.ReentrantLock(); void m() { final java.util.concurrent.locks.Lock l = this.own; l.lock(); try { n = 1; } finally { l.unlock(); } } }
@ThreadSafe class ReturnsInside { P p; P m() { synchronized (this) { return p; } } P k() { synchronized (this) { return null; } } }

@javax.ThreadSafe class A { }
@ThreadSafe.Old class B { }
@NotThreadSafe @ThreadSafe class C { }
class D { synchronized void f() { } }
class E { void f() { synchronized (this) { } } }
class F { interface I { synchronized void g(); } }
class G { void f(int x) { switch (x) { default: synchronized (this) { } } } }
@a.NotThreadSafe class H { synchronized void f() { } }
class I { Runnable r = () -> { synchronized (this) { } }; }
class J { abstract synchronized void f(); }
class K { K() { synchronized (K.class) { } } }
@ThreadSafe(1) class L { }

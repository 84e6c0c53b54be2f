class A {
  private A(int x) { }
  static @Foo(1) void m() { }
  @MainThread void n() { }
  @UiThread void o() { }
  @NotThreadSafe int p() { return 1; }
  <T> A(T t, Map<A, A> u) { }
  native static int q(A a) { return 1; }
  @Foo(static) int r() { switch (1) { } }
  final static A s() { return new A() { }; }
}

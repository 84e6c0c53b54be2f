class A { int n; A next; static int s; static A first; Object o; A() { } int f(int k) { return k; }
static A g(A a, int k) { return a; } void r() { r(); }
A m(A p, int k, Object q) { return p; }
A m1(A p, int k, Object q) { k = 1; }
A m2(A p, int k, Object q) { k = 'c'; }
A m3(A p, int k, Object q) { p = null; }
A m4(A p, int k, Object q) { q = "text"; }
A m5(A p, int k, Object q) { q = nothing; }
A m6(A p, int k, Object q) { q = A; }
A m7(A p, int k, Object q) { q = this; }
A m8(A p, int k, Object q) { q = A.class; }
A m9(A p, int k, Object q) { q = B.class; }
A m10(A p, int k, Object q) { q = a.b.class; }
A m11(A p, int k, Object q) { q = p; }
A m12(A p, int k, Object q) { k = n; }
A m13(A p, int k, Object q) { p = first; }
A m14(A p, int k, Object q) { k = A.s; }
A m15(A p, int k, Object q) { q = A.n; }
A m16(A p, int k, Object q) { q = A.nothing; }
A m17(A p, int k, Object q) { k = p.n; }
A m18(A p, int k, Object q) { k = p.s; }
A m19(A p, int k, Object q) { q = p.nothing; }
A m20(A p, int k, Object q) { q = q.nothing; }
A m21(A p, int k, Object q) { q = nothing.x; }
A m22(A p, int k, Object q) { q = p.next.next; }
A m23(A p, int k, Object q) { q = a[k]; }
A m24(A p, int k, Object q) { k = -n; }
A m25(A p, int k, Object q) { k = (int) n; }
A m26(A p, int k, Object q) { q = q instanceof A; }
A m27(A p, int k, Object q) { p = (A) q; }
A m28(A p, int k, Object q) { q = (Object) p; }
A m29(A p, int k, Object q) { k = n + 1; }
A m30(A p, int k, Object q) { q = n == 1 && s == 2; }
A m31(A p, int k, Object q) { q = n == 1 || s == 2; }
A m32(A p, int k, Object q) { p = k == 1 ? p : null; }
A m33(A p, int k, Object q) { q = k == 1 ? p : q; }
A m34(A p, int k, Object q) { p = k == 1 ? p : q; }
A m35(A p, int k, Object q) { o = q; }
A m36(A p, int k, Object q) { next = p; }
A m37(A p, int k, Object q) { next = q; }
A m38(A p, int k, Object q) { A.s = k; }
A m39(A p, int k, Object q) { A.n = k; }
A m40(A p, int k, Object q) { p.next = q; }
A m41(A p, int k, Object q) { p.s = k; }
A m42(A p, int k, Object q) { q.x = k; }
A m43(A p, int k, Object q) { nothing = k; }
A m44(A p, int k, Object q) { a[k] = n; }
A m45(A p, int k, Object q) { k += n; }
A m46(A p, int k, Object q) { k++; }
A m47(A p, int k, Object q) { n += k; }
A m48(A p, int k, Object q) { p.n -= k; }
A m49(A p, int k, Object q) { n++; }
A m50(A p, int k, Object q) { --p.n; }
A m51(A p, int k, Object q) { p.next++; }
A m52(A p, int k, Object q) { p.next += null; }
A m53(A p, int k, Object q) { first = q; }
A m54(A p, int k, Object q) { next = next = p; }
A m55(A p, int k, Object q) { f(k); }
A m56(A p, int k, Object q) { g(q, k); }
A m57(A p, int k, Object q) { p.f(n); }
A m58(A p, int k, Object q) { p.g(p, 1); }
A m59(A p, int k, Object q) { A.g(p, 2); }
A m60(A p, int k, Object q) { A.f(k); }
A m61(A p, int k, Object q) { nothing(k, q); }
A m62(A p, int k, Object q) { f(); }
A m63(A p, int k, Object q) { q.call(k); }
A m64(A p, int k, Object q) { nothing.call(k); }
A m65(A p, int k, Object q) { p.nothing(k); }
A m66(A p, int k, Object q) { this.f(1); }
A m67(A p, int k, Object q) { r(); }
A m68(A p, int k, Object q) { new A(); }
A m69(A p, int k, Object q) { p = new A(); }
A m70(A p, int k, Object q) { new A(k); }
A m71(A p, int k, Object q) { new B(k, q); }
A m72(A p, int k, Object q) { q = new int[] { 1, k }; }
A m73(A p, int k, Object q) { q = new Object[] { p, { q }, }; }
A m74(A p, int k, Object q) { A x = q, y = x; }
A m75(A p, int k, Object q) { A x; }
A m76(A p, int k, Object q) { int x = k; int y = x; }
A m77(A p, int k, Object q) { int[] x = { 1, 2 }; }
A m78(A p, int k, Object q) { if (k == 1) n = 1; }
A m79(A p, int k, Object q) { if (k == 1) n = 1; else n = 2; }
A m80(A p, int k, Object q) { while (k < n) k++; }
A m81(A p, int k, Object q) { for (int i = 0; i < k; i++) n = i; }
A m82(A p, int k, Object q) { for (k = 0, n = 1; ; k++, n++) ; }
A m83(A p, int k, Object q) { for (; ; ) { } }
A m84(A p, int k, Object q) { for (A x : q) p = x; }
A m85(A p, int k, Object q) { { A x = p; { int y; } int z; } }
A m86(A p, int k, Object q) { synchronized (q) { A x; k = 1; } }
A m87(A p, int k, Object q) { return q; }
A m88(A p, int k, Object q) { return p; }
A m89(A p, int k, Object q) { return; }
A m90(A p, int k, Object q) { { return p; } }
A m91(A p, int k, Object q) { if (k == 1) return p; else return q; }
A m92(A p, int k, Object q) { ((p)).next = p; }
A m93(A p, int k, Object q) { k = (A).s; }
A m94(A p, int k, Object q) { p = (A) new Object(); }
}

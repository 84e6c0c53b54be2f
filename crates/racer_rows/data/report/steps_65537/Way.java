@ThreadSafe class Way { int c; void go() { int v; m12(); m11(); m8(); m7(); m4(); m3(); m2(); m0(); m0(); this.c = 1; }
private void m12() { m11(); m11(); }
private void m11() { m10(); m10(); }
private void m10() { m9(); m9(); }
private void m9() { m8(); m8(); }
private void m8() { m7(); m7(); }
private void m7() { m6(); m6(); }
private void m6() { m5(); m5(); }
private void m5() { m4(); m4(); }
private void m4() { m3(); m3(); }
private void m3() { m2(); m2(); }
private void m2() { m1(); m1(); }
private void m1() { m0(); m0(); }
private void m0() { } }

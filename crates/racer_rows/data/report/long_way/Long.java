@ThreadSafe class Long { int c; void go() { m1(); this.c = 1; }
private void m1() { m2(); m2(); }
private void m2() { m3(); m3(); }
private void m3() { m4(); m4(); }
private void m4() { m5(); m5(); }
private void m5() { m6(); m6(); }
private void m6() { m7(); m7(); }
private void m7() { m8(); m8(); }
private void m8() { m9(); m9(); }
private void m9() { m10(); m10(); }
private void m10() { m11(); m11(); }
private void m11() { m12(); m12(); }
private void m12() { m13(); m13(); }
private void m13() { m14(); m14(); }
private void m14() { m15(); m15(); }
private void m15() { m16(); m16(); }
private void m16() { m17(); m17(); }
private void m17() { } }

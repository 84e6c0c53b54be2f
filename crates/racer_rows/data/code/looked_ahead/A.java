@ThreadSafe class A { int a; int b; int x;
Object m1() { return (a) -> b; }
Object m2() { return (a) - b; }
Object m3() { return (A & B) x; }
Object m4() { return (a & b) + x; }
Object m5() { return a < b > :: c; }
Object m6() { return a < b; }
}

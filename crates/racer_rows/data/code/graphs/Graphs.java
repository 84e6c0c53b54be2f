// chains of one to five methods
class G0 { static void m0() { } }
class G1 { static void m0() { m1(); } static void m1() { } }
class G2 { static void m0() { } static void m1() { m0(); } static void m2() { m1(); } }
class G3 { static void m0() { m1(); } static void m1() { m2(); } static void m2() { m3(); } static void m3() { } }
class G4 { static void m0() { m2(); } static void m1() { m4(); } static void m2() { } static void m3() { m1(); } static void m4() { m0(); } }
// cycles of one to five methods
class G5 { static void m0() { m0(); } }
class G6 { static void m0() { m1(); } static void m1() { m0(); } }
class G7 { static void m0() { m1(); } static void m1() { m2(); } static void m2() { m0(); } }
class G8 { static void m0() { m3(); } static void m1() { m2(); } static void m2() { m0(); } static void m3() { m1(); } }
class G9 { static void m0() { m2(); } static void m1() { m3(); } static void m2() { m4(); } static void m3() { m0(); } static void m4() { m1(); } }
// a caller of a cycle, a callee of one, and a method between two
class G10 { static void m0() { m1(); } static void m1() { m0(); } static void m2() { m0(); } }
class G11 { static void m0() { } static void m1() { m2(); } static void m2() { m1(); m0(); } }
class G12 { static void m0() { m1(); } static void m1() { m0(); m2(); } static void m2() { m3(); } static void m3() { m4(); } static void m4() { m3(); } }
// a method that calls itself and is called
class G13 { static void m0() { m1(); } static void m1() { m1(); m2(); } static void m2() { } }
// two cycles that share a method, and calls that come more than once
class G14 { static void m0() { m1(); } static void m1() { m0(); m2(); } static void m2() { m1(); } static void m3() { m4(); } static void m4() { } }
class G15 { static void m0() { m1(); m1(); m2(); m2(); } static void m1() { } static void m2() { m1(); } }
// a diamond, and one whose end calls its beginning
class G16 { static void m0() { m1(); m2(); } static void m1() { m3(); } static void m2() { m3(); } static void m3() { } }
class G17 { static void m0() { m1(); m2(); } static void m1() { m3(); } static void m2() { m3(); } static void m3() { m0(); } }

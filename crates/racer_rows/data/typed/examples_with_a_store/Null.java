class P { int g; }
@ThreadSafe
class Null {
  int c;
  void m() { P x = null; x.g = 1; this.c = 2; }
}

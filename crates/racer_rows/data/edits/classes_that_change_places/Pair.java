@ThreadSafe
class Left {
  Right right;
  int n;
  static int all;
  static int count(int k) { all = k; return all; }
  Right pick(Right other) { if (n == 0) return other; return this.right; }
  void go(Right other) { pick(other).step(this); n = 1; }
}
@ThreadSafe
class Right {
  Left left;
  int m;
  void step(Left l) { l.n = 2; left = l; m = Left.count(m); }
}

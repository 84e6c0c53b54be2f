@ThreadSafe
class Box {
  int first;
  int held;
  Box next;
  int last;
  void set() { held = 1; }
  void all() { set(); last = 2; }
  int see() { return last; }
}

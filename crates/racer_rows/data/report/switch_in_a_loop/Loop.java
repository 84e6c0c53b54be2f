@ThreadSafe
class Loop {
  int a;
  int b;
  void run(int k) {
    while (true) {
      switch (k) {
        case 1: a = 1; break;
        case 2: continue;
        default: a = 2;
      }
      if (k == 0) break;
    }
    b = 1;
  }
}

@ThreadSafe
class Jobs {
  int count;
  int done;
  Jobs next;

  void run() {
    count = 1;
    fill(2);
    count = done;
  }

  void fill(int n) {
    do {
      count++;
    } while (count < n);
  }

  private Jobs(int n) {
    if (n < 0) throw new IllegalArgumentException();
    count = n;
  }

  static Jobs of(int n) {
    return new Jobs(n);
  }

  @MainThread
  int first(Jobs[] all) {
    outer: for (Jobs job : all) {
      while (true) {
        if (job == null) continue outer;
        break;
      }
      done = job.count;
    }
    return done;
  }

  int pick(int k) {
    switch (k) {
      case 0:
      case 1: return count;
      default: done = k;
    }
    return done;
  }

  void close() {
    try (Lock l = lock()) {
      done = 0;
    } catch (RuntimeException | Error e) {
      done = 1;
    } finally {
      synchronized (this) { done = 2; }
    }
  }

  void check(int k) {
    assert k > 0 : "k";
    done = k;
  }

  void check(int k, int l) {
    while (k > l) assert k > 0;
  }

  void check(long k) { done = 3; }
}

class Taken {
  int held;

  void m() { while (true) { synchronized (this) { held++; } break; } }

  void n() { held = 1; }
}

class Plain {
  int held;

  void m() { held++; throw null; }

  void n() { held = 1; }
}

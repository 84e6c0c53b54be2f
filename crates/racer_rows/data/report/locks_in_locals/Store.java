@ThreadSafe
class Store {
  int n;
  Lock m;
  void byParameter(Lock l) { l.lock(); try { n = 1; } finally { l.unlock(); } }
  void storedInClause(Lock l) { l.lock(); try { n = 1; } catch (E e) { l = null; } finally { l.unlock(); } }
  void stored(Lock l) { l.lock(); try { l = null; } finally { l.unlock(); } }
  void storedWithin(Lock l) { l.lock(); try { try { } catch (E e) { l = null; } } finally { l.unlock(); } }
  void byArray(Lock[] l) { l.lock(); try { } finally { l.unlock(); } }
  void byArrayBehind(Lock l[]) { l.lock(); try { } finally { l.unlock(); } }
  void byAnyNumber(Lock... l) { l.lock(); try { } finally { l.unlock(); } }
  void each() { for (Lock l : m) { l.lock(); try { n = 2; } finally { l.unlock(); } } }
  void loop() { for (Lock l = m; ; ) { l.lock(); try { n = 3; } finally { l.unlock(); } } }
  void resource() { try (Lock l = m) { l.lock(); try { n = 4; } finally { l.unlock(); } } }
  void storedElsewhere(Lock l) { l.lock(); try { this.l = null; l.x = 1; l[1] = 2; } finally { l.unlock(); } }
  void counted(Lock l) { l.lock(); try { l++; } finally { l.unlock(); } }
  void storedInTokens(Lock l) { l.lock(); try { Runnable r = () -> { l = null; }; } finally { l.unlock(); } }
  void qualified(a.b.ReentrantLock l) { l.lock(); try { n = 5; } finally { l.unlock(); } }
  void arguments(ReentrantLock<A> l) { l.lock(); try { } finally { l.unlock(); } }
  <Lock> void parameter(Lock l) { l.lock(); try { n = 6; } finally { l.unlock(); } }
  void told(Lock l) { l.lock(); try { assert n == 1 : (l = m); } finally { l.unlock(); } }
  void label(Lock l) { l.lock(); try { switch (n) { case (l = null): } } finally { l.unlock(); } }
  void open() { n = 7; }
}

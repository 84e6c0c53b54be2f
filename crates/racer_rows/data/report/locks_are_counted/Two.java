@ThreadSafe class Two { int n; final Object k = new Object(); void a() { synchronized (k) { n = 1; } } synchronized void b() { n = 2; } }

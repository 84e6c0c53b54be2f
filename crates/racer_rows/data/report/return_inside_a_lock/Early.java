@ThreadSafe class Early { int c; boolean done; int put() { synchronized (this) { if (done) return 0; done = true; } c = 1; return 1; } }

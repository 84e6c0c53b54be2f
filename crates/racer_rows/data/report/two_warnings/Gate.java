@ThreadSafe class Gate { int c; int k; void a() { synchronized (this) { this.k = 1; } this.c = 1; } synchronized int b() { return this.c; } }

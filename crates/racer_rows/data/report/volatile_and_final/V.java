@ThreadSafe class V { volatile int a; final int b = 2; void set() { a = 1; } int get() { return b; } }

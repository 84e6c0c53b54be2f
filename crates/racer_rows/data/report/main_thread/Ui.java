@ThreadSafe class Ui { int c; @MainThread void a() { c = 1; } @MainThread void b() { c = 2; } }

@ThreadSafe class Ui { int c; @MainThread void a() { c = 1; } void b() { c = 2; } }

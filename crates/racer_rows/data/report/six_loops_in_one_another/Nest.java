@ThreadSafe class Nest { int a; boolean t; void m() { do do do do do do a++; while (t); while (t); while (t); while (t); while (t); while (t); } }

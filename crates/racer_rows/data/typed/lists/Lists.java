class P { final List<String> names = new ArrayList<>(); int n; }
@ThreadSafe class Touches { final List<String> names = new ArrayList<>(); void m(String s) { names.add(s); } int k() { return names.size(); } }
@ThreadSafe class MakesAndReads { void m() { new P(); } int k(P p) { return p.names.size(); } }
@ThreadSafe class MakesAlone { void m() { new P(); } int k(P p) { return p.n; } }
@ThreadSafe class Handed { final Set<String> all = new HashSet<>(); Object m() { return all; } void k() { all.remove(null); } }
@ThreadSafe class Walked { final List<String> names = new ArrayList<>(); int m() { int n = 0; for (String s : names) n++; return n; } }
@ThreadSafe class OfNull { void m() { P p = null; p.names.add("a"); } }

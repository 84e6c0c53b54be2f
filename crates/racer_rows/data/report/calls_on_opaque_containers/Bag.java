@ThreadSafe
class Bag {
  private final List<String> names = new ArrayList<>();
  static final Map<String, Bag> all = new java.util.HashMap<String, Bag>();
  final Set<Bag> parts = new TreeSet<Bag>();
  final Collection<String> some = new LinkedList<>();
  private final List<String> inParentheses = (new ArrayList<>());
  private final List<String> withBody = new ArrayList<String>() { int more; };
  private final List<String> late;
  private final List<String> other = new Rope<String>();
  private List<String> loose = new ArrayList<>();
  private final boolean wasEmpty = names.isEmpty();
  Bag next;
  Bag() { late = new ArrayList<>(); names.add("first"); }
  void add(String s) { names.add(s); }
  void addAt(String s) { this.names.add(0, s); }
  void toOther(Bag bag) { bag.names.add("x"); }
  void toNext() { next.names.clear(); }
  void toClass() { Bag.all.put("this", this); }
  int ofClass() { return all.size(); }
  void toOtherClass() { Shelf.books.add("x"); }
  synchronized void over() { for (String s : names) { s.length(); } }
  void overOther(Bag bag) { for (Bag part : bag.parts) { part.next = bag; } }
  void until() { while (names.isEmpty()) { names.add("z"); } }
  void within() { names.add(0, String.valueOf(all.get(some.contains("y")))); }
  void inBrackets() { (names).add("x"); (this).names.add("y"); }
  Object looked() { Object o = names.get(0); return o; }
  void notCounted() { names.add(); names.get(0, 1); names.iterator(); names.removeIf(null); all.keySet().clear(); }
  void none() { inParentheses.add("x"); withBody.add("x"); late.add("x"); other.add("x"); loose.add("x"); }
}
class Shelf {
  static final List<String> books = new ArrayList<>(10);
}

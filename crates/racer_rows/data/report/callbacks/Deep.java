class Node { Node next; Node other; int value; }

@ThreadSafe
class Deep {
  Node head;
  Node tail;
  boolean up;

  private Node step(Node n) { return n.next; }
  private Node two(Node n) { return step(step(n)); }
  private Node four(Node n) { return two(two(n)); }
  private Node either(Node n, Node m) { return up ? n : m; }
  private void write(Node n) { n.value = 1; }
  private void link(Node n, Node m) { n.next = m; }
  void far() { write(four(head)); }
  void lost() { write(either(head, tail)); }
  void kept() { write(either(head, head)); }
  void linked() { link(head, tail); write(head.next); }
  void apart() { link(new Node(), tail); write(tail.other); }
  void within() { synchronized (head) { write(head); } write(tail); }
  void twice() { write(head); write(head); }
  void first() { second(); }
  void second() { if (up) first(); tail.value = 2; }
  void reads() { int k = four(tail).value; }
  void in_a_loop() { Node n = head; while (n != null) { write(n); n = step(n); } }
}

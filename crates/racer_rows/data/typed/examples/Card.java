class Owner { String name; }
@ThreadSafe
class Card {
  Owner owner;
  void rename() { this.owner.name = "x"; }
  synchronized String name() { return this.owner.name; }
}

class Owner { String name; }
@ThreadSafe
class Card {
  Owner owner;
  void rename(Owner o) { this.owner = o; this.owner.name = "x"; }
  synchronized String name() { return this.owner.name; }
}

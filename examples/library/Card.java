package library;

import library.people.Owner;

/** A library card. Its owner never changes, but the owner's name may. */
@ThreadSafe
class Card {
  final Owner owner;
  int loans;

  Card(Owner owner) {
    this.owner = owner;
  }

  void rename(String name) {
    this.owner.name = name;
  }

  synchronized String label() {
    return this.owner.name + " has " + loans;
  }

  synchronized void lend() {
    loans++;
  }
}

class Owner { int age; }
@ThreadSafe
class Copy {
  Owner owner;
  void set() { Owner o = this.owner; this.owner = null; o.age = 1; }
}

class Owner { int age; }
@ThreadSafe
class Copy {
  Owner owner;
  void set() { Owner o = this.owner; o.age = 1; }
}

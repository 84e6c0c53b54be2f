package library.people;

public class Owner {
  public String name;
}

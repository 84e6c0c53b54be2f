package hall;

import java.util.ArrayList;
import java.util.HashMap;
import java.util.List;
import java.util.Map;

/** Who is invited, and at which table each of them sits. */
@ThreadSafe
public class Guests {
  private final List<String> invited = new ArrayList<>();
  private final Map<String, Integer> tables = new HashMap<>();

  public void invite(String name) {
    invited.add(name);
  }

  public synchronized int invited() {
    return invited.size();
  }

  public synchronized void seat(String name, int table) {
    tables.put(name, table);
  }

  public synchronized Integer tableOf(String name) {
    return tables.get(name);
  }
}

package text;

class Words {
  int count;

  void add() {
    count++;
  }
}

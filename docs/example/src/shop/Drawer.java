package shop;

class Drawer {
  boolean open;
}

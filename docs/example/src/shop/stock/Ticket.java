package shop.stock;

record Ticket(int number) { }

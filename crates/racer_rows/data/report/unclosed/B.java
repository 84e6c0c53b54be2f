class B {}
/* x
procedure f(x0: int, x1: int) {
  assert x0 > 0 - 1;
  assert x1 > 1 - 1;
}

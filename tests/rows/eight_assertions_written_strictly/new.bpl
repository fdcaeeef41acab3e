procedure f(x0: int, x1: int, x2: int, x3: int, x4: int, x5: int, x6: int, x7: int) {
  assert x0 > 0 - 1;
  assert x1 > 1 - 1;
  assert x2 > 2 - 1;
  assert x3 > 3 - 1;
  assert x4 > 4 - 1;
  assert x5 > 5 - 1;
  assert x6 > 6 - 1;
  assert x7 > 7 - 1;
}

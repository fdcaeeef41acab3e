procedure f(x0: int, x1: int, x2: int, x3: int, x4: int, x5: int, x6: int, x7: int) {
  assert x0 != 7;
  assert x1 != 7;
  assert x2 != 7;
  assert x3 != 7;
  assert x4 != 7;
  assert x5 != 7;
  assert x6 != 7;
  assert x7 != 7;
}

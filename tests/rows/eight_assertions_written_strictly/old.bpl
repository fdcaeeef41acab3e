procedure f(x0: int, x1: int, x2: int, x3: int, x4: int, x5: int, x6: int, x7: int) {
  assert x0 >= 0;
  assert x1 >= 1;
  assert x2 >= 2;
  assert x3 >= 3;
  assert x4 >= 4;
  assert x5 >= 5;
  assert x6 >= 6;
  assert x7 >= 7;
}

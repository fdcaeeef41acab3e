procedure f(x0: int, x1: int, x2: int, x3: int, x4: int, x5: int, x6: int, x7: int, x8: int, x9: int, x10: int, x11: int, x12: int, x13: int, x14: int, x15: int, x16: int, x17: int, x18: int, x19: int) {
  assert x0 != 7;
  assert x1 != 7;
  assert x2 != 7;
  assert x3 != 7;
  assert x4 != 7;
  assert x5 != 7;
  assert x6 != 7;
  assert x7 != 7;
  assert x8 != 7;
  assert x9 != 7;
  assert !(x10 == 7);
  assert x11 != 7;
  assert x12 != 7;
  assert x13 != 7;
  assert x14 != 7;
  assert x15 != 7;
  assert x16 != 7;
  assert x17 != 7;
  assert x18 != 7;
  assert x19 != 7;
}

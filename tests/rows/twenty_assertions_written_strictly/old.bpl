procedure f(x0: int, x1: int, x2: int, x3: int, x4: int, x5: int, x6: int, x7: int, x8: int, x9: int, x10: int, x11: int, x12: int, x13: int, x14: int, x15: int, x16: int, x17: int, x18: int, x19: int) {
  assert x0 >= 0;
  assert x1 >= 1;
  assert x2 >= 2;
  assert x3 >= 3;
  assert x4 >= 4;
  assert x5 >= 5;
  assert x6 >= 6;
  assert x7 >= 7;
  assert x8 >= 8;
  assert x9 >= 9;
  assert x10 >= 10;
  assert x11 >= 11;
  assert x12 >= 12;
  assert x13 >= 13;
  assert x14 >= 14;
  assert x15 >= 15;
  assert x16 >= 16;
  assert x17 >= 17;
  assert x18 >= 18;
  assert x19 >= 19;
}

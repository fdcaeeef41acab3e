procedure f(x: int, y: int, z: int) returns (hi: int, lo: int, a: int, m: int) {
  hi := x;
  lo := y;
  if (x < y) { hi := y; lo := x; }
  if (y <= x && z <= x) { m := x; } else if (z <= y) { m := y; } else { m := z; }
  assert z <= m && y <= m;
  assert x <= m;
  a := x;
  if (a < 0) { a := 0 - a; }
  assert a > -1;
}

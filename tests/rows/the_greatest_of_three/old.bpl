procedure f(x: int, y: int, z: int) returns (hi: int, lo: int, a: int, m: int) {
  if (y <= x) { hi := x; lo := y; } else { hi := y; lo := x; }
  m := hi;
  if (m < z) { m := z; }
  assert x <= m && y <= m && z <= m;
  if (0 <= x) { a := x; } else { a := -x; }
  assert 0 <= a;
}

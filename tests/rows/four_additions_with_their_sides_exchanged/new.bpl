procedure f(b1: bool, b2: bool, b3: bool, b4: bool, r: int) returns (s: int) {
  s := r;
  if (b1) { s := 1 + s; }
  if (b2) { s := 2 + s; }
  if (b3) { s := 3 + s; }
  if (b4) { s := 4 + s; }
  assert !(s > 1000);
}

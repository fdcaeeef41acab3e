procedure f(b1: bool, b2: bool, b3: bool, b4: bool, r: int) returns (s: int) {
  s := r;
  if (b1) { s := 1 + s; }
  assert s < 0 || s > 0;
  if (b2) { s := 2 + s; }
  assert s < 7 || s > 7;
  if (b3) { s := 3 + s; }
  assert s < 14 || s > 14;
  if (b4) { s := 4 + s; }
  assert s < 21 || s > 21;
}

procedure f(b1: bool, b2: bool, b3: bool, b4: bool, r: int) returns (s: int) {
  s := r;
  if (b1) { s := s + 1; }
  assert s != 0;
  if (b2) { s := s + 2; }
  assert s != 7;
  if (b3) { s := s + 3; }
  assert s != 14;
  if (b4) { s := s + 4; }
  assert s != 21;
}

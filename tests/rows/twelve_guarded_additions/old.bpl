procedure f(b1: bool, b2: bool, b3: bool, b4: bool, b5: bool, b6: bool, b7: bool, b8: bool, b9: bool, b10: bool, b11: bool, b12: bool, r: int) returns (s: int) {
  s := r;
  if (b1) { s := s + 1; }
  if (b2) { s := s + 2; }
  if (b3) { s := s + 3; }
  if (b4) { s := s + 4; }
  if (b5) { s := s + 5; }
  if (b6) { s := s + 6; }
  if (b7) { s := s + 7; }
  if (b8) { s := s + 8; }
  if (b9) { s := s + 9; }
  if (b10) { s := s + 10; }
  if (b11) { s := s + 11; }
  if (b12) { s := s + 12; }
  assert s <= 1000;
}

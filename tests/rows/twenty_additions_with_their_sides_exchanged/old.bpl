procedure f(b1: bool, b2: bool, b3: bool, b4: bool, b5: bool, b6: bool, b7: bool, b8: bool, b9: bool, b10: bool, b11: bool, b12: bool, b13: bool, b14: bool, b15: bool, b16: bool, b17: bool, b18: bool, b19: bool, b20: bool, r: int) returns (s: int) {
  s := r;
  if (b1) { s := s + 1; }
  if (b2) { s := s + 2; }
  if (b3) { s := s + 3; }
  if (b4) { s := s + 4; }
  if (b5) { s := s + 5; }
  if (b6) { s := s + 6; }
  if (b7) { s := s + 7; }
  if (b8) { s := s + 8; }
  if (b9) { s := s + 9; }
  if (b10) { s := s + 10; }
  if (b11) { s := s + 11; }
  if (b12) { s := s + 12; }
  if (b13) { s := s + 13; }
  if (b14) { s := s + 14; }
  if (b15) { s := s + 15; }
  if (b16) { s := s + 16; }
  if (b17) { s := s + 17; }
  if (b18) { s := s + 18; }
  if (b19) { s := s + 19; }
  if (b20) { s := s + 20; }
  assert s <= 1000;
}

procedure f(b1: bool, b2: bool, b3: bool, b4: bool, b5: bool, b6: bool, b7: bool, b8: bool, b9: bool, b10: bool, b11: bool, b12: bool, b13: bool, b14: bool, b15: bool, b16: bool, b17: bool, b18: bool, b19: bool, b20: bool, r: int) returns (s: int) {
  s := r;
  if (b1) { s := 1 + s; }
  if (b2) { s := 2 + s; }
  if (b3) { s := 3 + s; }
  if (b4) { s := 4 + s; }
  if (b5) { s := 5 + s; }
  if (b6) { s := 6 + s; }
  if (b7) { s := 7 + s; }
  if (b8) { s := 8 + s; }
  if (b9) { s := 9 + s; }
  if (b10) { s := 10 + s; }
  if (b11) { s := 11 + s; }
  if (b12) { s := 12 + s; }
  if (b13) { s := 13 + s; }
  if (b14) { s := 14 + s; }
  if (b15) { s := 15 + s; }
  if (b16) { s := 16 + s; }
  if (b17) { s := 17 + s; }
  if (b18) { s := 18 + s; }
  if (b19) { s := 19 + s; }
  if (b20) { s := 20 + s; }
  assert !(s > 1000);
}

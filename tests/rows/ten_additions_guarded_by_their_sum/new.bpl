procedure f(x: int) returns (r: int) {
  r := x;
  if (r > 0) { r := 1 + r; }
  if (r > 3) { r := 2 + r; }
  if (r > 6) { r := 3 + r; }
  if (r > 9) { r := 4 + r; }
  if (r > 12) { r := 5 + r; }
  if (r > 15) { r := 6 + r; }
  if (r > 18) { r := 7 + r; }
  if (r > 21) { r := 8 + r; }
  if (r > 24) { r := 9 + r; }
  if (r > 27) { r := 10 + r; }
  assert !(r < 0);
}

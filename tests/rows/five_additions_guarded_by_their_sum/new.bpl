procedure f(x: int) returns (r: int) {
  r := x;
  if (r > 0) { r := 1 + r; }
  if (r > 3) { r := 2 + r; }
  if (r > 6) { r := 3 + r; }
  if (r > 9) { r := 4 + r; }
  if (r > 12) { r := 5 + r; }
  assert !(r < 0);
}
